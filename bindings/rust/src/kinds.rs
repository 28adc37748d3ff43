//! The kinds of elements.

use crate::CowStr;
use std::fmt;

#[cfg(feature = "serde")]
use serde::{Deserialize, Serialize};

/// The alignment of a table's column.
#[derive(Copy, Clone, Debug, Eq, PartialEq, Hash)]
#[cfg_attr(feature = "serde", derive(Serialize, Deserialize))]
pub enum Alignment {
    /// None is given.
    None,
    /// Left.
    Left,
    /// Center.
    Center,
    /// Right.
    Right,
}

/// The kind of an alert, which is a block quote.
#[derive(Copy, Clone, Debug, Eq, PartialEq, Hash)]
#[cfg_attr(feature = "serde", derive(Serialize, Deserialize))]
pub enum BlockQuoteKind {
    /// `> [!NOTE]`.
    Note,
    /// `> [!TIP]`.
    Tip,
    /// `> [!IMPORTANT]`.
    Important,
    /// `> [!WARNING]`.
    Warning,
    /// `> [!CAUTION]`.
    Caution,
}

/// The kind of a metadata block.
#[derive(Copy, Clone, Debug, Eq, PartialEq, Hash)]
#[cfg_attr(feature = "serde", derive(Serialize, Deserialize))]
pub enum MetadataBlockKind {
    /// Between lines of `---`.
    YamlStyle,
    /// Between lines of `+++`.
    PlusesStyle,
}

/// The kind of a code block.
#[derive(Clone, Debug, Eq, PartialEq, Hash)]
#[cfg_attr(feature = "serde", derive(Serialize, Deserialize))]
pub enum CodeBlockKind<'a> {
    /// An indented code block.
    Indented,
    /// A fenced code block with its info string, which may be empty.
    #[cfg_attr(feature = "serde", serde(borrow))]
    Fenced(CowStr<'a>),
}

impl<'a> CodeBlockKind<'a> {
    /// Returns whether the code block is indented.
    pub fn is_indented(&self) -> bool {
        matches!(self, CodeBlockKind::Indented)
    }

    /// Returns whether the code block is fenced.
    pub fn is_fenced(&self) -> bool {
        matches!(self, CodeBlockKind::Fenced(_))
    }

    /// Returns the same kind with a text of its own.
    pub fn into_static(self) -> CodeBlockKind<'static> {
        match self {
            CodeBlockKind::Indented => CodeBlockKind::Indented,
            CodeBlockKind::Fenced(info) => CodeBlockKind::Fenced(info.into_static()),
        }
    }
}

/// The level of a heading.
#[derive(Copy, Clone, Debug, Eq, PartialEq, Ord, PartialOrd, Hash)]
#[cfg_attr(feature = "serde", derive(Serialize, Deserialize))]
pub enum HeadingLevel {
    /// Level 1.
    H1 = 1,
    /// Level 2.
    H2,
    /// Level 3.
    H3,
    /// Level 4.
    H4,
    /// Level 5.
    H5,
    /// Level 6.
    H6,
}

impl fmt::Display for HeadingLevel {
    /// Writes `h1` to `h6`.
    fn fmt(&self, f: &mut fmt::Formatter<'_>) -> fmt::Result {
        write!(f, "h{}", *self as u8)
    }
}

/// The error of a number that is no level of a heading.
#[derive(Copy, Clone, Debug, Eq, PartialEq, Ord, PartialOrd, Hash)]
pub struct InvalidHeadingLevel(usize);

impl fmt::Display for InvalidHeadingLevel {
    fn fmt(&self, f: &mut fmt::Formatter<'_>) -> fmt::Result {
        write!(f, "{} is no level of a heading, 1 to 6", self.0)
    }
}

impl std::error::Error for InvalidHeadingLevel {}

impl TryFrom<usize> for HeadingLevel {
    type Error = InvalidHeadingLevel;

    /// Takes 1 to 6.
    fn try_from(level: usize) -> Result<HeadingLevel, InvalidHeadingLevel> {
        Ok(match level {
            1 => HeadingLevel::H1,
            2 => HeadingLevel::H2,
            3 => HeadingLevel::H3,
            4 => HeadingLevel::H4,
            5 => HeadingLevel::H5,
            6 => HeadingLevel::H6,
            _ => return Err(InvalidHeadingLevel(level)),
        })
    }
}

/// How a link or an image names its destination.
#[derive(Copy, Clone, Debug, Eq, PartialEq, Hash)]
#[cfg_attr(feature = "serde", derive(Serialize, Deserialize))]
pub enum LinkType {
    /// `[a](b)`.
    Inline,
    /// `[a][b]`, where `b` is defined.
    Reference,
    /// `[a][b]`, where a callback gave the destination.
    ReferenceUnknown,
    /// `[a][]`, where `a` is defined.
    Collapsed,
    /// `[a][]`, where a callback gave the destination.
    CollapsedUnknown,
    /// `[a]`, where `a` is defined.
    Shortcut,
    /// `[a]`, where a callback gave the destination.
    ShortcutUnknown,
    /// `<http://a.b>`.
    Autolink,
    /// `<a@b.c>`.
    Email,
    /// `[[a]]`, or with another text `[[a|b]]`.
    WikiLink {
        /// Whether the link has a text of its own, after a pipe.
        has_pothole: bool,
    },
}
