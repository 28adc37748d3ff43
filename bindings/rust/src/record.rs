//! Flat records, in which the library returns and takes events. `crates/cmark_flat/README.md` of the repository has the layout.

use crate::Error;

/// The number of bytes of a record before its text.
pub(crate) const HEAD: usize = 32;

/// The kinds of records.
pub(crate) mod kind {
    pub const FURTHER: u8 = 0;
    pub const START: u8 = 1;
    pub const END: u8 = 2;
    pub const TEXT: u8 = 3;
    pub const CODE: u8 = 4;
    pub const INLINE_MATH: u8 = 5;
    pub const DISPLAY_MATH: u8 = 6;
    pub const HTML: u8 = 7;
    pub const INLINE_HTML: u8 = 8;
    pub const FOOTNOTE_REFERENCE: u8 = 9;
    pub const SOFT_BREAK: u8 = 10;
    pub const HARD_BREAK: u8 = 11;
    pub const RULE: u8 = 12;
    pub const TASK_LIST_MARKER: u8 = 13;
    pub const DEFINITION: u8 = 14;
    pub const QUESTION: u8 = 15;
    pub const ANSWER: u8 = 16;
}

/// The tags of the elements that a start or an end names.
pub(crate) mod tag {
    pub const PARAGRAPH: u8 = 1;
    pub const HEADING: u8 = 2;
    pub const BLOCK_QUOTE: u8 = 3;
    pub const CODE_BLOCK: u8 = 4;
    pub const HTML_BLOCK: u8 = 5;
    pub const LIST: u8 = 6;
    pub const ITEM: u8 = 7;
    pub const FOOTNOTE_DEFINITION: u8 = 8;
    pub const DEFINITION_LIST: u8 = 9;
    pub const DEFINITION_LIST_TITLE: u8 = 10;
    pub const DEFINITION_LIST_DEFINITION: u8 = 11;
    pub const TABLE: u8 = 12;
    pub const TABLE_HEAD: u8 = 13;
    pub const TABLE_ROW: u8 = 14;
    pub const TABLE_CELL: u8 = 15;
    pub const EMPHASIS: u8 = 16;
    pub const STRONG: u8 = 17;
    pub const STRIKETHROUGH: u8 = 18;
    pub const SUPERSCRIPT: u8 = 19;
    pub const SUBSCRIPT: u8 = 20;
    #[cfg(feature = "highlight")]
    pub const HIGHLIGHT: u8 = 21;
    pub const LINK: u8 = 22;
    pub const IMAGE: u8 = 23;
    pub const METADATA_BLOCK: u8 = 24;
}

/// The parts of an element that are in further records after its start.
pub(crate) mod part {
    pub const TITLE: u8 = 1;
    pub const LABEL: u8 = 2;
    pub const HEADING_ID: u8 = 3;
    pub const CLASS: u8 = 4;
    pub const ATTRIBUTE: u8 = 5;
    pub const VALUE: u8 = 6;
    pub const NO_VALUE: u8 = 7;
    pub const FIRST_NUMBER: u8 = 8;
}

/// A flat record.
#[derive(Clone, Copy, Debug, Default, PartialEq, Eq)]
pub(crate) struct Record<'r> {
    /// Its kind, of [`kind`].
    pub kind: u8,
    /// The tag of a start or an end, of [`tag`]; the part that a further record has, of [`part`]; else 0.
    pub tag: u8,
    /// A number that the kind or the tag explains.
    pub data: u8,
    /// The byte offset in the text at which the event's range starts.
    pub start: u64,
    /// The byte offset at which it ends.
    pub end: u64,
    /// Its text.
    pub text: &'r [u8],
}

impl Record<'_> {
    /// Appends the record to bytes. If memory is refused, the bytes are as they were.
    #[inline]
    pub fn append_to(&self, bytes: &mut Vec<u8>) -> Result<(), Error> {
        bytes.try_reserve(HEAD + self.text.len())?;
        let mut head = [0; HEAD];
        head[0] = self.kind;
        head[1] = self.tag;
        head[2] = self.data;
        head[8..16].copy_from_slice(&self.start.to_le_bytes());
        head[16..24].copy_from_slice(&self.end.to_le_bytes());
        head[24..].copy_from_slice(&(self.text.len() as u64).to_le_bytes());
        bytes.extend_from_slice(&head);
        bytes.extend_from_slice(self.text);
        Ok(())
    }
}

/// The records of bytes, one after the other.
#[derive(Clone, Copy, Debug)]
pub(crate) struct Records<'r> {
    rest: &'r [u8],
}

impl<'r> Records<'r> {
    /// The records of these bytes.
    pub fn of(bytes: &'r [u8]) -> Records<'r> {
        Records { rest: bytes }
    }

    /// The number of bytes that are not read yet.
    pub fn len(&self) -> usize {
        self.rest.len()
    }

    /// The next record, or `None` at the end.
    #[inline]
    pub fn next(&mut self) -> Result<Option<Record<'r>>, Error> {
        if self.rest.is_empty() {
            return Ok(None);
        }
        if self.rest.len() < HEAD {
            return Err(Error::Malformed);
        }
        let (head, following) = self.rest.split_at(HEAD);
        let length = usize::try_from(wide(head, 24)).map_err(|_| Error::Malformed)?;
        if head[3..8] != [0; 5] || following.len() < length {
            return Err(Error::Malformed);
        }
        let (text, rest) = following.split_at(length);
        self.rest = rest;
        Ok(Some(Record {
            kind: head[0],
            tag: head[1],
            data: head[2],
            start: wide(head, 8),
            end: wide(head, 16),
            text,
        }))
    }

    /// The next record if it is a further one; else nothing is read.
    pub fn further(&mut self) -> Result<Option<Record<'r>>, Error> {
        if self.rest.first() != Some(&kind::FURTHER) {
            return Ok(None);
        }
        self.next()
    }

    /// The further record with this part, which has to be the next one.
    pub fn part(&mut self, part: u8) -> Result<Record<'r>, Error> {
        match self.further()? {
            Some(record) if record.tag == part => Ok(record),
            _ => Err(Error::Malformed),
        }
    }
}

/// The number of eight bytes at an offset of a head, the lowest byte first.
#[inline]
fn wide(head: &[u8], at: usize) -> u64 {
    let mut bytes = [0; 8];
    bytes.copy_from_slice(&head[at..at + 8]);
    u64::from_le_bytes(bytes)
}
