//! The parser.

use crate::answers::Answers;
use crate::decode::Decoder;
use crate::error::expect;
use crate::{
    definitions, native, BrokenLinkCallback, DefaultBrokenLinkCallback, Error, Event, Options,
    RefDefs,
};
use std::fmt;
use std::iter::FusedIterator;
use std::ops::Range;
use std::sync::OnceLock;

/// An iterator of the events of a text.
///
/// The text is read when the first event is asked for, and all of it then. Texts of events are borrowed where they are bytes of the source.
///
/// ```
/// use pulldown_cmark::{Event, Parser, Tag, TagEnd};
///
/// let events: Vec<Event> = Parser::new("*a*").collect();
/// assert_eq!(events, [
///     Event::Start(Tag::Paragraph),
///     Event::Start(Tag::Emphasis),
///     Event::Text("a".into()),
///     Event::End(TagEnd::Emphasis),
///     Event::End(TagEnd::Paragraph),
/// ]);
/// ```
///
/// # Panics
///
/// `next` panics if memory is refused; [`Parser::try_next`] then returns an error.
pub struct Parser<'input, F = DefaultBrokenLinkCallback> {
    text: &'input str,
    options: Options,
    callback: Option<F>,
    answers: Answers,
    /// The events, once the text is read.
    events: Option<Decoder<'input>>,
    /// The definitions, once they were asked for.
    definitions: OnceLock<RefDefs<'input>>,
}

impl<F> fmt::Debug for Parser<'_, F> {
    fn fmt(&self, f: &mut fmt::Formatter<'_>) -> fmt::Result {
        f.debug_struct("Parser")
            .field("text", &self.text)
            .field("options", &self.options)
            .field("callback", &self.callback.as_ref().map(|_| ..))
            .finish_non_exhaustive()
    }
}

impl<'input> Parser<'input, DefaultBrokenLinkCallback> {
    /// Returns the events of a text, read as CommonMark.
    pub fn new(text: &'input str) -> Self {
        Self::new_ext(text, Options::empty())
    }

    /// Returns the events of a text, read with options.
    pub fn new_ext(text: &'input str, options: Options) -> Self {
        Self::new_with_broken_link_callback(text, options, None)
    }
}

impl<'input, F: BrokenLinkCallback<'input>> Parser<'input, F> {
    /// Returns the events of a text, with a callback for links and images whose label has no definition.
    ///
    /// The callback returns a destination and a title, or `None` if the brackets remain text. It is asked when the first event is read, and
    /// about each link at most once, unless memory is refused in between. The text is read once more after each round of answers: twice for
    /// most texts.
    ///
    /// The questions are those that pulldown-cmark asks, with two exceptions, where the callback may be asked about a link that the last
    /// reading does not look up:
    ///
    /// - Once the destinations and titles of references have as many bytes as the text, and at least 100,000, further references remain
    ///   text. The callback may have been asked about some of those.
    /// - With [`Options::ENABLE_WIKILINKS`], the answer to a link inside a wikilink means that this is no wikilink. The callback may have
    ///   been asked about a link right after it, such as `[c]` in `![[a][b]][c]`.
    ///
    /// ```
    /// use pulldown_cmark::{html, BrokenLink, Options, Parser};
    ///
    /// let mut callback = |link: BrokenLink| Some((format!("/{}", link.reference).into(), "".into()));
    /// let parser = Parser::new_with_broken_link_callback("[a]", Options::empty(), Some(&mut callback));
    /// let mut out = String::new();
    /// html::push_html(&mut out, parser);
    /// assert_eq!(out, "<p><a href=\"/a\">a</a></p>\n");
    /// ```
    pub fn new_with_broken_link_callback(
        text: &'input str,
        options: Options,
        broken_link_callback: Option<F>,
    ) -> Self {
        Parser {
            text,
            options,
            callback: broken_link_callback,
            answers: Answers::default(),
            events: None,
            definitions: OnceLock::new(),
        }
    }

    /// Returns the link reference definitions of the text. They are read when they are asked for first.
    ///
    /// ```
    /// use pulldown_cmark::Parser;
    ///
    /// let parser = Parser::new("[Bread]: /bread 'Fresh'\n");
    /// let found = parser.reference_definitions().get("BREAD").unwrap();
    /// assert_eq!((&*found.dest, found.span.clone()), ("/bread", 0..23));
    /// ```
    ///
    /// # Panics
    ///
    /// If memory is refused; [`Parser::try_reference_definitions`] then returns an error.
    pub fn reference_definitions(&self) -> &RefDefs<'_> {
        expect(self.try_reference_definitions())
    }

    /// Returns the link reference definitions of the text.
    ///
    /// # Errors
    ///
    /// [`Error::OutOfMemory`] if memory is refused. The call can be repeated.
    pub fn try_reference_definitions(&self) -> Result<&RefDefs<'input>, Error> {
        if let Some(found) = self.definitions.get() {
            return Ok(found);
        }
        let records = native::references(self.text, self.options.library_bits())?;
        let found = definitions::decode(self.text, &records)?;
        Ok(self.definitions.get_or_init(|| found))
    }

    /// Returns the rest of the events, each with its range in the text.
    pub fn into_offset_iter(self) -> OffsetIter<'input, F> {
        OffsetIter { inner: self }
    }

    /// Returns the next event, or `None` at the end.
    ///
    /// # Errors
    ///
    /// [`Error::OutOfMemory`] if memory is refused. No event is lost: the next call returns the same event, if it is given memory.
    #[inline]
    pub fn try_next(&mut self) -> Result<Option<Event<'input>>, Error> {
        if self.events.is_none() {
            self.events = Some(self.read()?);
        }
        match &mut self.events {
            Some(events) => events.next(),
            None => Ok(None),
        }
    }

    /// The range of the event that was returned last.
    fn range(&self) -> Range<usize> {
        self.events.as_ref().map_or(0..0, Decoder::range)
    }

    /// Reads the text.
    fn read(&mut self) -> Result<Decoder<'input>, Error> {
        let options = self.options.library_bits();
        match &mut self.callback {
            Some(callback) => self.answers.read(self.text, options, callback),
            None => {
                let records = native::events(self.text, options)?;
                let end = records.len();
                Ok(Decoder::new(self.text, records, end))
            }
        }
    }
}

impl<'input, F: BrokenLinkCallback<'input>> Iterator for Parser<'input, F> {
    type Item = Event<'input>;

    #[inline]
    fn next(&mut self) -> Option<Event<'input>> {
        expect(self.try_next())
    }
}

impl<'input, F: BrokenLinkCallback<'input>> FusedIterator for Parser<'input, F> {}

/// An iterator of the events of a text, each with its range: the bytes of the text from which the event comes.
///
/// A start and its end both have the range of the whole element. [`Parser::into_offset_iter`] makes it.
///
/// ```
/// use pulldown_cmark::{Event, Parser};
///
/// let text = "a *b*";
/// let found = Parser::new(text)
///     .into_offset_iter()
///     .find(|(event, _)| *event == Event::Text("b".into()));
/// assert_eq!(found.map(|(_, range)| &text[range]), Some("b"));
/// ```
///
/// # Panics
///
/// `next` panics if memory is refused; [`OffsetIter::try_next`] then returns an error.
#[derive(Debug)]
pub struct OffsetIter<'a, F = DefaultBrokenLinkCallback> {
    inner: Parser<'a, F>,
}

impl<'a, F: BrokenLinkCallback<'a>> OffsetIter<'a, F> {
    /// Returns the link reference definitions of the text, like [`Parser::reference_definitions`].
    ///
    /// # Panics
    ///
    /// If memory is refused; [`OffsetIter::try_reference_definitions`] then returns an error.
    pub fn reference_definitions(&self) -> &RefDefs<'_> {
        self.inner.reference_definitions()
    }

    /// Returns the link reference definitions of the text.
    ///
    /// # Errors
    ///
    /// [`Error::OutOfMemory`] if memory is refused. The call can be repeated.
    pub fn try_reference_definitions(&self) -> Result<&RefDefs<'a>, Error> {
        self.inner.try_reference_definitions()
    }

    /// Returns the next event with its range, or `None` at the end.
    ///
    /// # Errors
    ///
    /// [`Error::OutOfMemory`] if memory is refused. No event is lost: the next call returns the same event, if it is given memory.
    pub fn try_next(&mut self) -> Result<Option<(Event<'a>, Range<usize>)>, Error> {
        let event = self.inner.try_next()?;
        Ok(event.map(|event| (event, self.inner.range())))
    }
}

impl<'a, F: BrokenLinkCallback<'a>> Iterator for OffsetIter<'a, F> {
    type Item = (Event<'a>, Range<usize>);

    #[inline]
    fn next(&mut self) -> Option<(Event<'a>, Range<usize>)> {
        expect(self.try_next())
    }
}

impl<'a, F: BrokenLinkCallback<'a>> FusedIterator for OffsetIter<'a, F> {}
