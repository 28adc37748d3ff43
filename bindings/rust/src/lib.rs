//! Markdown to events and to HTML: the API of [pulldown-cmark] 0.13 over a library that is proved.
//!
//! The library is written in Rattle, a Rust with contracts, and linked as an archive. It is proved that its events and its HTML are those
//! of a written grammar, and that it never panics. This crate is not proved. It passes texts to the library and makes [`Event`]s of the
//! records that the library returns.
//!
//! ```
//! use pulldown_cmark::{html, Event, Options, Parser};
//!
//! let parser = Parser::new_ext("~~Hi~~, *you*", Options::ENABLE_STRIKETHROUGH);
//! let parser = parser.map(|event| match event {
//!     Event::Text(text) => Event::Text(text.to_uppercase().into()),
//!     other => other,
//! });
//!
//! let mut out = String::new();
//! html::push_html(&mut out, parser);
//! assert_eq!(out, "<p><del>HI</del>, <em>YOU</em></p>\n");
//! ```
//!
//! # Memory
//!
//! If memory is refused, the methods of pulldown-cmark that have no error panic: [`Parser::next`](Iterator::next),
//! [`Parser::reference_definitions`], the merge streams and [`html::push_html`]. Each parser method that panics so has a variant that
//! returns an [`Error`] instead, and leaves everything as it was: [`Parser::try_next`], [`OffsetIter::try_next`],
//! [`Parser::try_reference_definitions`], [`html::try_push_html`]. Nothing else in this crate panics. Conversions of texts such as `clone`
//! and `into_static` take memory as the standard library does.
//!
//! [pulldown-cmark]: https://docs.rs/pulldown-cmark/0.13
#![warn(missing_docs)]
#![deny(unsafe_code)]

mod answers;
mod callback;
mod cow;
mod decode;
mod definitions;
mod encode;
mod error;
mod event;
pub mod html;
mod kinds;
mod lend;
#[cfg(test)]
mod malformed;
mod merge;
#[allow(unsafe_code)]
mod native;
mod options;
mod parser;
mod record;
mod stream;
mod tag;

pub use callback::{BrokenLink, BrokenLinkCallback, DefaultBrokenLinkCallback};
pub use cow::{CowStr, InlineStr, StringTooLongError};
pub use definitions::{LinkDef, RefDefs};
pub use error::Error;
pub use event::Event;
pub use kinds::{
    Alignment, BlockQuoteKind, CodeBlockKind, HeadingLevel, InvalidHeadingLevel, LinkType,
    MetadataBlockKind,
};
pub use merge::{TextMergeStream, TextMergeWithOffset};
pub use options::Options;
pub use parser::{OffsetIter, Parser};
pub use stream::{Change, Stream};
pub use tag::{Tag, TagEnd};

/// The merge streams, under the name of their module in pulldown-cmark.
pub mod utils {
    pub use crate::merge::{TextMergeStream, TextMergeWithOffset};
}

/// Returns the events of a text as lines of JSON: one line for each event, `{"range":[FROM,TO],"event":[NAME,DATA..]}`. The range has
/// byte offsets of the text.
///
/// ```
/// use pulldown_cmark::{events_json, Options};
///
/// assert_eq!(events_json("***", Options::empty())?, "{\"range\":[0,3],\"event\":[\"Rule\"]}\n");
/// # Ok::<(), pulldown_cmark::Error>(())
/// ```
///
/// # Errors
///
/// [`Error::OutOfMemory`] if memory is refused.
pub fn events_json(text: &str, options: Options) -> Result<String, Error> {
    native::events_json(text, options.library_bits())
}

/// Returns the version of the library. It ends with `+not.proved` if the library was built without proofs.
///
/// ```
/// assert!(pulldown_cmark::library_version().starts_with("0.13."));
/// ```
pub fn library_version() -> String {
    let version = native::version();
    let label = if version >> 31 == 1 {
        "+not.proved"
    } else {
        ""
    };
    let [_, major, minor, patch] = (version & 0x7fff_ffff).to_be_bytes();
    format!("{major}.{minor}.{patch}{label}")
}
