//! Events.

use crate::{CowStr, Tag, TagEnd};

#[cfg(feature = "serde")]
use serde::{Deserialize, Serialize};

/// A part of a text as the parser reads it: the start or the end of an element, or what is between them. Starts and ends match.
#[derive(Clone, Debug, Eq, PartialEq, Hash)]
#[cfg_attr(feature = "serde", derive(Serialize, Deserialize))]
pub enum Event<'a> {
    /// The start of an element. All events up to its end are inside it.
    #[cfg_attr(feature = "serde", serde(borrow))]
    Start(Tag<'a>),
    /// The end of an element.
    End(TagEnd),
    /// Text.
    #[cfg_attr(feature = "serde", serde(borrow))]
    Text(CowStr<'a>),
    /// A code span.
    #[cfg_attr(feature = "serde", serde(borrow))]
    Code(CowStr<'a>),
    /// A formula in a line, without its delimiters.
    #[cfg_attr(feature = "serde", serde(borrow))]
    InlineMath(CowStr<'a>),
    /// A formula of its own, without its delimiters.
    #[cfg_attr(feature = "serde", serde(borrow))]
    DisplayMath(CowStr<'a>),
    /// A line of an HTML block, with its line ending.
    #[cfg_attr(feature = "serde", serde(borrow))]
    Html(CowStr<'a>),
    /// A tag or other HTML inside a line.
    #[cfg_attr(feature = "serde", serde(borrow))]
    InlineHtml(CowStr<'a>),
    /// A reference to the footnote with this label.
    #[cfg_attr(feature = "serde", serde(borrow))]
    FootnoteReference(CowStr<'a>),
    /// A line ending inside a paragraph.
    SoftBreak,
    /// A line break.
    HardBreak,
    /// A thematic break.
    Rule,
    /// The box of a task list item; true if it is checked.
    TaskListMarker(bool),
}

impl<'a> Event<'a> {
    /// Returns the same event with texts of its own, which live as long as needed.
    ///
    /// ```
    /// use pulldown_cmark::{Event, Parser};
    ///
    /// let events: Vec<Event<'static>> = {
    ///     let text = String::from("a text that is dropped");
    ///     Parser::new(&text).map(Event::into_static).collect()
    /// };
    /// assert_eq!(events[1], Event::Text("a text that is dropped".into()));
    /// ```
    pub fn into_static(self) -> Event<'static> {
        match self {
            Event::Start(tag) => Event::Start(tag.into_static()),
            Event::End(tag) => Event::End(tag),
            Event::Text(text) => Event::Text(text.into_static()),
            Event::Code(text) => Event::Code(text.into_static()),
            Event::InlineMath(text) => Event::InlineMath(text.into_static()),
            Event::DisplayMath(text) => Event::DisplayMath(text.into_static()),
            Event::Html(text) => Event::Html(text.into_static()),
            Event::InlineHtml(text) => Event::InlineHtml(text.into_static()),
            Event::FootnoteReference(label) => Event::FootnoteReference(label.into_static()),
            Event::SoftBreak => Event::SoftBreak,
            Event::HardBreak => Event::HardBreak,
            Event::Rule => Event::Rule,
            Event::TaskListMarker(is_checked) => Event::TaskListMarker(is_checked),
        }
    }
}
