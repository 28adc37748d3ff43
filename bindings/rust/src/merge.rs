//! Merged texts.

use crate::error::expect;
use crate::{Error, Event};
use std::iter::Fuse;
use std::ops::Range;

/// Merges adjacent texts into one. Adjacent texts that are all empty are dropped.
///
/// ```
/// use pulldown_cmark::{Event, Parser, TextMergeStream};
///
/// let texts = TextMergeStream::new(Parser::new("a [b"))
///     .filter(|event| matches!(event, Event::Text(_)));
/// assert_eq!(texts.collect::<Vec<_>>(), [Event::Text("a [b".into())]);
/// ```
///
/// # Panics
///
/// `next` panics if memory for the text is refused.
#[derive(Debug)]
pub struct TextMergeStream<'a, I> {
    inner: TextMergeWithOffset<'a, WithoutRanges<I>>,
}

impl<'a, I: Iterator<Item = Event<'a>>> TextMergeStream<'a, I> {
    /// Returns the events of an iterator, with merged texts.
    pub fn new(iter: I) -> Self {
        TextMergeStream {
            inner: TextMergeWithOffset::new(WithoutRanges(iter)),
        }
    }
}

impl<'a, I: Iterator<Item = Event<'a>>> Iterator for TextMergeStream<'a, I> {
    type Item = Event<'a>;

    fn next(&mut self) -> Option<Event<'a>> {
        self.inner.next().map(|(event, _)| event)
    }
}

/// Events with empty ranges.
#[derive(Debug)]
struct WithoutRanges<I>(I);

impl<'a, I: Iterator<Item = Event<'a>>> Iterator for WithoutRanges<I> {
    type Item = (Event<'a>, Range<usize>);

    fn next(&mut self) -> Option<(Event<'a>, Range<usize>)> {
        self.0.next().map(|event| (event, 0..0))
    }
}

/// Merges adjacent texts into one, with ranges: a merged text has the range from the start of the first to the end of the last.
///
/// ```
/// use pulldown_cmark::{Event, Parser, TextMergeWithOffset};
///
/// let mut events = TextMergeWithOffset::new(Parser::new("a [b").into_offset_iter());
/// assert_eq!(events.nth(1), Some((Event::Text("a [b".into()), 0..4)));
/// ```
///
/// # Panics
///
/// `next` panics if memory for the text is refused.
#[derive(Debug)]
pub struct TextMergeWithOffset<'a, I> {
    iter: Fuse<I>,
    /// The event after a text, which is returned next.
    ahead: Option<(Event<'a>, Range<usize>)>,
}

impl<'a, I: Iterator<Item = (Event<'a>, Range<usize>)>> TextMergeWithOffset<'a, I> {
    /// Returns the events of an iterator, such as [`OffsetIter`](crate::OffsetIter), with merged texts.
    pub fn new(iter: I) -> Self {
        TextMergeWithOffset {
            iter: iter.fuse(),
            ahead: None,
        }
    }

    /// Appends the texts that follow, and returns the end of the last one. The event after them is kept.
    fn append(&mut self, merged: &mut String, mut end: usize) -> Result<usize, Error> {
        loop {
            match self.iter.next() {
                Some((Event::Text(text), range)) => {
                    merged.try_reserve(text.len())?;
                    merged.push_str(&text);
                    end = range.end;
                }
                other => {
                    self.ahead = other;
                    return Ok(end);
                }
            }
        }
    }
}

impl<'a, I: Iterator<Item = (Event<'a>, Range<usize>)>> Iterator for TextMergeWithOffset<'a, I> {
    type Item = (Event<'a>, Range<usize>);

    fn next(&mut self) -> Option<(Event<'a>, Range<usize>)> {
        loop {
            let (first, range) = match self.ahead.take().or_else(|| self.iter.next())? {
                (Event::Text(first), range) => (first, range),
                other => return Some(other),
            };
            let (second, next) = match self.iter.next() {
                Some((Event::Text(second), next)) => (second, next),
                other => {
                    self.ahead = other;
                    return Some((Event::Text(first), range));
                }
            };
            let mut merged = String::new();
            expect(
                merged
                    .try_reserve(first.len() + second.len())
                    .map_err(Error::from),
            );
            merged.push_str(&first);
            merged.push_str(&second);
            let end = expect(self.append(&mut merged, next.end));
            if !merged.is_empty() {
                return Some((Event::Text(merged.into()), range.start..end));
            }
        }
    }
}
