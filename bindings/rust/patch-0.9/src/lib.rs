//! The crate `pulldown_cmark_proved` with the API of pulldown-cmark 0.9, so that one line replaces it in crates that were written for it:
//!
//! ```toml
//! [patch.crates-io]
//! pulldown-cmark = { path = "pulldown_cmark_proved-0.13.6/patch-0.9" }
//! ```
//!
//! The events are those of version 0.13 in the types of 0.9, and the rules are those of 0.13 too. The module `escape` and serialization are
//! left out.
//!
//! ```
//! use pulldown_cmark::{html, Options, Parser};
//!
//! let mut out = String::new();
//! html::push_html(&mut out, Parser::new_ext("~~a~~", Options::ENABLE_STRIKETHROUGH));
//! assert_eq!(out, "<p><del>a</del></p>\n");
//! ```
#![forbid(unsafe_code)]
#![warn(missing_docs)]

mod event;
pub mod html;
mod parser;

pub use event::{CodeBlockKind, Event, LinkType, Tag};
pub use parser::{BrokenLink, BrokenLinkCallback, OffsetIter, Parser};
pub use proved::{
    Alignment, CowStr, HeadingLevel, InlineStr, InvalidHeadingLevel, LinkDef, RefDefs,
};

bitflags::bitflags! {
    /// The rules beyond CommonMark that apply. Join them by `|`.
    pub struct Options: u32 {
        /// Tables.
        const ENABLE_TABLES = 1 << 1;
        /// Footnotes, in the form of version 0.9.
        const ENABLE_FOOTNOTES = 1 << 2;
        /// Strikethrough.
        const ENABLE_STRIKETHROUGH = 1 << 3;
        /// Task list items.
        const ENABLE_TASKLISTS = 1 << 4;
        /// Typographic quotes, dashes and ellipses.
        const ENABLE_SMART_PUNCTUATION = 1 << 5;
        /// Ids and classes of headings.
        const ENABLE_HEADING_ATTRIBUTES = 1 << 6;
    }
}

impl Options {
    /// The same rules in version 0.13.
    fn proved(self) -> proved::Options {
        let mut options = proved::Options::from_bits_truncate(self.bits());
        options.set(
            proved::Options::ENABLE_OLD_FOOTNOTES,
            self.contains(Options::ENABLE_FOOTNOTES),
        );
        options
    }
}
