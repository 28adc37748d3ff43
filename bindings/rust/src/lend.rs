//! Texts that borrow from the source.

use crate::{CowStr, Error};
use std::ops::Range;

/// A text of an event with this range: a slice of the source if the text is found there, else a copy.
///
/// The text is looked for at four places of the range only, so this takes time for the text and not for the range: in its middle, as the
/// text of a code span is; before its last byte, as the destination of a link is; at its end; after the run of one byte with which it
/// begins, as the info string of a fence is.
pub(crate) fn text<'i>(
    source: &'i str,
    range: &Range<usize>,
    bytes: &[u8],
) -> Result<CowStr<'i>, Error> {
    if bytes.is_empty() {
        return Ok(CowStr::Borrowed(""));
    }
    let more = range.len().wrapping_sub(bytes.len());
    if more <= range.len() {
        let run = run_of_one_byte(source.as_bytes(), range);
        for before in [more / 2, more.saturating_sub(1), more, run.min(more)] {
            let start = range.start + before;
            if let Some(found) = lent(source, start..start + bytes.len(), bytes) {
                return Ok(CowStr::Borrowed(found));
            }
        }
    }
    copy(bytes)
}

/// The number of bytes at the start of a range that are the same.
fn run_of_one_byte(source: &[u8], range: &Range<usize>) -> usize {
    let bytes = source.get(range.clone()).unwrap_or_default();
    let first = bytes.first();
    bytes.iter().take_while(|it| Some(*it) == first).count()
}

/// A text of an event, which is borrowed if it is the bytes of the event's range.
#[inline]
pub(crate) fn whole<'i>(
    source: &'i str,
    range: &Range<usize>,
    bytes: &[u8],
) -> Result<CowStr<'i>, Error> {
    match lent(source, range.clone(), bytes) {
        Some(found) => Ok(CowStr::Borrowed(found)),
        None => copy(bytes),
    }
}

/// The slice of the source at this range, if it has these bytes.
#[inline]
fn lent<'i>(source: &'i str, range: Range<usize>, bytes: &[u8]) -> Option<&'i str> {
    source.get(range).filter(|found| found.as_bytes() == bytes)
}

/// Where texts of one kind are looked for in the attributes of a heading, in order.
#[derive(Clone, Copy)]
pub(crate) struct Attributes<'i> {
    rest: &'i str,
}

impl<'i> Attributes<'i> {
    /// The attributes of a heading with this range.
    pub fn of(source: &'i str, range: &Range<usize>) -> Attributes<'i> {
        let heading = source.get(range.clone()).unwrap_or_default();
        Attributes {
            rest: &heading[heading.rfind('{').unwrap_or(heading.len())..],
        }
    }

    /// A text of the attributes: a slice of the source if the text is found after the one before it, else a copy. After a text that is not
    /// found, none is looked for, so that all searches together pass over the attributes once.
    pub fn text(&mut self, bytes: &[u8]) -> Result<CowStr<'i>, Error> {
        let text = std::str::from_utf8(bytes).map_err(|_| Error::Malformed)?;
        let Some(at) = self.rest.find(text) else {
            self.rest = "";
            return CowStr::copied(text);
        };
        let (found, rest) = self.rest[at..].split_at(text.len());
        self.rest = rest;
        Ok(CowStr::Borrowed(found))
    }
}

/// A copy of a text.
fn copy(bytes: &[u8]) -> Result<CowStr<'static>, Error> {
    CowStr::copied(std::str::from_utf8(bytes).map_err(|_| Error::Malformed)?)
}
