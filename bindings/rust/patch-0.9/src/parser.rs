//! The parser of version 0.9.

use crate::{CowStr, Event, LinkType, Options, RefDefs, Tag};
use std::iter::FusedIterator;
use std::ops::Range;

/// A link whose label has no definition.
pub struct BrokenLink<'a> {
    /// The range of the link in the text, in bytes.
    pub span: Range<usize>,
    /// How the link names its destination.
    pub link_type: LinkType,
    /// The label.
    pub reference: CowStr<'a>,
}

/// A callback for links without a definition.
pub type BrokenLinkCallback<'input, 'borrow> =
    Option<&'borrow mut dyn FnMut(BrokenLink<'input>) -> Option<(CowStr<'input>, CowStr<'input>)>>;

/// The callback for version 0.13.
struct Callback<'input, 'borrow>(
    &'borrow mut dyn FnMut(BrokenLink<'input>) -> Option<(CowStr<'input>, CowStr<'input>)>,
);

impl<'input> proved::BrokenLinkCallback<'input> for Callback<'input, '_> {
    fn handle_broken_link(
        &mut self,
        link: proved::BrokenLink<'input>,
    ) -> Option<(CowStr<'input>, CowStr<'input>)> {
        (self.0)(BrokenLink {
            span: link.span,
            link_type: LinkType::of(link.link_type),
            reference: link.reference,
        })
    }
}

/// An iterator of the events of a text.
pub struct Parser<'input, 'callback> {
    inner: OffsetIter<'input, 'callback>,
}

impl<'input, 'callback> Parser<'input, 'callback> {
    /// Returns the events of a text, read as CommonMark.
    pub fn new(text: &'input str) -> Self {
        Self::new_ext(text, Options::empty())
    }

    /// Returns the events of a text, read with options.
    pub fn new_ext(text: &'input str, options: Options) -> Self {
        Self::new_with_broken_link_callback(text, options, None)
    }

    /// Returns the events of a text, with a callback for links whose label has no definition.
    pub fn new_with_broken_link_callback(
        text: &'input str,
        options: Options,
        broken_link_callback: BrokenLinkCallback<'input, 'callback>,
    ) -> Self {
        let parser = proved::Parser::new_with_broken_link_callback(
            text,
            options.proved(),
            broken_link_callback.map(Callback),
        );
        Parser {
            inner: OffsetIter {
                source: text,
                inner: parser.into_offset_iter(),
                open: Vec::new(),
            },
        }
    }

    /// Returns the link reference definitions of the text.
    pub fn reference_definitions(&self) -> &RefDefs<'_> {
        self.inner.reference_definitions()
    }

    /// Returns the rest of the events, each with its range in the text.
    pub fn into_offset_iter(self) -> OffsetIter<'input, 'callback> {
        self.inner
    }
}

impl<'input> Iterator for Parser<'input, '_> {
    type Item = Event<'input>;

    fn next(&mut self) -> Option<Event<'input>> {
        self.inner.next().map(|(event, _)| event)
    }
}

impl FusedIterator for Parser<'_, '_> {}

/// An iterator of the events of a text, each with its range.
pub struct OffsetIter<'a, 'b> {
    source: &'a str,
    inner: proved::OffsetIter<'a, Callback<'a, 'b>>,
    /// The tags of the elements that are open; `None` for an element that version 0.9 does not have.
    open: Vec<Option<Tag<'a>>>,
}

impl<'a> OffsetIter<'a, '_> {
    /// Returns the link reference definitions of the text.
    pub fn reference_definitions(&self) -> &RefDefs<'_> {
        self.inner.reference_definitions()
    }

    /// The event of version 0.9, or `None` if it has none.
    fn event(&mut self, event: proved::Event<'a>) -> Option<Event<'a>> {
        Some(match event {
            proved::Event::Start(tag) => {
                self.open.push(Tag::of(tag, self.source));
                Event::Start(self.open.last().cloned()??)
            }
            proved::Event::End(_) => Event::End(self.open.pop()??),
            proved::Event::Text(text) => Event::Text(text),
            proved::Event::Code(text) => Event::Code(text),
            proved::Event::Html(text) | proved::Event::InlineHtml(text) => Event::Html(text),
            proved::Event::FootnoteReference(label) => Event::FootnoteReference(label),
            proved::Event::SoftBreak => Event::SoftBreak,
            proved::Event::HardBreak => Event::HardBreak,
            proved::Event::Rule => Event::Rule,
            proved::Event::TaskListMarker(is_checked) => Event::TaskListMarker(is_checked),
            proved::Event::InlineMath(_) | proved::Event::DisplayMath(_) => return None,
        })
    }
}

impl<'a> Iterator for OffsetIter<'a, '_> {
    type Item = (Event<'a>, Range<usize>);

    fn next(&mut self) -> Option<(Event<'a>, Range<usize>)> {
        loop {
            let (event, range) = self.inner.next()?;
            if let Some(event) = self.event(event) {
                return Some((event, range));
            }
        }
    }
}

impl FusedIterator for OffsetIter<'_, '_> {}
