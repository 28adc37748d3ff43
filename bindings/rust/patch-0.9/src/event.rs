//! Events in the types of version 0.9.

use crate::{Alignment, CowStr, HeadingLevel};

/// An event.
#[derive(Clone, Debug, PartialEq)]
pub enum Event<'a> {
    /// The start of an element.
    Start(Tag<'a>),
    /// The end of an element.
    End(Tag<'a>),
    /// Text.
    Text(CowStr<'a>),
    /// A code span.
    Code(CowStr<'a>),
    /// A line of an HTML block, or HTML inside a line.
    Html(CowStr<'a>),
    /// A reference to the footnote with this label.
    FootnoteReference(CowStr<'a>),
    /// A line ending inside a paragraph.
    SoftBreak,
    /// A line break.
    HardBreak,
    /// A thematic break.
    Rule,
    /// The box of a task list item; true if it is checked.
    TaskListMarker(bool),
}

/// An element that has other events inside.
#[derive(Clone, Debug, PartialEq)]
pub enum Tag<'a> {
    /// A paragraph.
    Paragraph,
    /// A heading with its level, its id and its classes.
    Heading(HeadingLevel, Option<&'a str>, Vec<&'a str>),
    /// A block quote.
    BlockQuote,
    /// A code block.
    CodeBlock(CodeBlockKind<'a>),
    /// A list; if it is ordered, with its first number.
    List(Option<u64>),
    /// An item of a list.
    Item,
    /// The definition of the footnote with this label.
    FootnoteDefinition(CowStr<'a>),
    /// A table, with the alignment of each column.
    Table(Vec<Alignment>),
    /// The head of a table.
    TableHead,
    /// A row of a table's body.
    TableRow,
    /// A cell of a table.
    TableCell,
    /// Emphasis.
    Emphasis,
    /// Strong emphasis.
    Strong,
    /// Strikethrough.
    Strikethrough,
    /// A link with its type, its destination and its title.
    Link(LinkType, CowStr<'a>, CowStr<'a>),
    /// An image with its type, its destination and its title.
    Image(LinkType, CowStr<'a>, CowStr<'a>),
}

/// The kind of a code block.
#[derive(Clone, Debug, PartialEq)]
pub enum CodeBlockKind<'a> {
    /// An indented code block.
    Indented,
    /// A fenced code block with its info string.
    Fenced(CowStr<'a>),
}

impl CodeBlockKind<'_> {
    /// Returns whether the code block is indented.
    pub fn is_indented(&self) -> bool {
        matches!(self, CodeBlockKind::Indented)
    }

    /// Returns whether the code block is fenced.
    pub fn is_fenced(&self) -> bool {
        matches!(self, CodeBlockKind::Fenced(_))
    }
}

/// How a link names its destination.
#[derive(Copy, Clone, Debug, PartialEq)]
pub enum LinkType {
    /// `[a](b)`.
    Inline,
    /// `[a][b]`.
    Reference,
    /// `[a][b]`, where a callback gave the destination.
    ReferenceUnknown,
    /// `[a][]`.
    Collapsed,
    /// `[a][]`, where a callback gave the destination.
    CollapsedUnknown,
    /// `[a]`.
    Shortcut,
    /// `[a]`, where a callback gave the destination.
    ShortcutUnknown,
    /// `<http://a.b>`.
    Autolink,
    /// `<a@b.c>`.
    Email,
}

impl LinkType {
    /// The type of a link of version 0.13. Wikilinks, for which version 0.9 has no option, are inline links.
    pub(crate) fn of(link_type: proved::LinkType) -> LinkType {
        match link_type {
            proved::LinkType::Inline | proved::LinkType::WikiLink { .. } => LinkType::Inline,
            proved::LinkType::Reference => LinkType::Reference,
            proved::LinkType::ReferenceUnknown => LinkType::ReferenceUnknown,
            proved::LinkType::Collapsed => LinkType::Collapsed,
            proved::LinkType::CollapsedUnknown => LinkType::CollapsedUnknown,
            proved::LinkType::Shortcut => LinkType::Shortcut,
            proved::LinkType::ShortcutUnknown => LinkType::ShortcutUnknown,
            proved::LinkType::Autolink => LinkType::Autolink,
            proved::LinkType::Email => LinkType::Email,
        }
    }

    /// The same type in version 0.13.
    pub(crate) fn proved(self) -> proved::LinkType {
        match self {
            LinkType::Inline => proved::LinkType::Inline,
            LinkType::Reference => proved::LinkType::Reference,
            LinkType::ReferenceUnknown => proved::LinkType::ReferenceUnknown,
            LinkType::Collapsed => proved::LinkType::Collapsed,
            LinkType::CollapsedUnknown => proved::LinkType::CollapsedUnknown,
            LinkType::Shortcut => proved::LinkType::Shortcut,
            LinkType::ShortcutUnknown => proved::LinkType::ShortcutUnknown,
            LinkType::Autolink => proved::LinkType::Autolink,
            LinkType::Email => proved::LinkType::Email,
        }
    }
}

impl<'a> Tag<'a> {
    /// The tag of an element of version 0.13, or `None` if version 0.9 has none. `source` is the text that is read.
    pub(crate) fn of(tag: proved::Tag<'a>, source: &'a str) -> Option<Tag<'a>> {
        Some(match tag {
            proved::Tag::Paragraph => Tag::Paragraph,
            proved::Tag::Heading {
                level, id, classes, ..
            } => {
                let id = id.and_then(|id| lent(id, source));
                let classes = classes.into_iter().filter_map(|it| lent(it, source));
                Tag::Heading(level, id, classes.collect())
            }
            proved::Tag::BlockQuote(_) => Tag::BlockQuote,
            proved::Tag::CodeBlock(proved::CodeBlockKind::Indented) => {
                Tag::CodeBlock(CodeBlockKind::Indented)
            }
            proved::Tag::CodeBlock(proved::CodeBlockKind::Fenced(info)) => {
                Tag::CodeBlock(CodeBlockKind::Fenced(info))
            }
            proved::Tag::List(number) => Tag::List(number),
            proved::Tag::Item => Tag::Item,
            proved::Tag::FootnoteDefinition(label) => Tag::FootnoteDefinition(label),
            proved::Tag::Table(columns) => Tag::Table(columns),
            proved::Tag::TableHead => Tag::TableHead,
            proved::Tag::TableRow => Tag::TableRow,
            proved::Tag::TableCell => Tag::TableCell,
            proved::Tag::Emphasis => Tag::Emphasis,
            proved::Tag::Strong => Tag::Strong,
            proved::Tag::Strikethrough => Tag::Strikethrough,
            proved::Tag::Link {
                link_type,
                dest_url,
                title,
                ..
            } => Tag::Link(LinkType::of(link_type), dest_url, title),
            proved::Tag::Image {
                link_type,
                dest_url,
                title,
                ..
            } => Tag::Image(LinkType::of(link_type), dest_url, title),
            _ => return None,
        })
    }

    /// The same tag in version 0.13.
    pub(crate) fn proved(self) -> proved::Tag<'a> {
        match self {
            Tag::Paragraph => proved::Tag::Paragraph,
            Tag::Heading(level, id, classes) => proved::Tag::Heading {
                level,
                id: id.map(CowStr::Borrowed),
                classes: classes.into_iter().map(CowStr::Borrowed).collect(),
                attrs: Vec::new(),
            },
            Tag::BlockQuote => proved::Tag::BlockQuote(None),
            Tag::CodeBlock(CodeBlockKind::Indented) => {
                proved::Tag::CodeBlock(proved::CodeBlockKind::Indented)
            }
            Tag::CodeBlock(CodeBlockKind::Fenced(info)) => {
                proved::Tag::CodeBlock(proved::CodeBlockKind::Fenced(info))
            }
            Tag::List(number) => proved::Tag::List(number),
            Tag::Item => proved::Tag::Item,
            Tag::FootnoteDefinition(label) => proved::Tag::FootnoteDefinition(label),
            Tag::Table(columns) => proved::Tag::Table(columns),
            Tag::TableHead => proved::Tag::TableHead,
            Tag::TableRow => proved::Tag::TableRow,
            Tag::TableCell => proved::Tag::TableCell,
            Tag::Emphasis => proved::Tag::Emphasis,
            Tag::Strong => proved::Tag::Strong,
            Tag::Strikethrough => proved::Tag::Strikethrough,
            Tag::Link(link_type, dest_url, title) => proved::Tag::Link {
                link_type: link_type.proved(),
                dest_url,
                title,
                id: CowStr::Borrowed(""),
            },
            Tag::Image(link_type, dest_url, title) => proved::Tag::Image {
                link_type: link_type.proved(),
                dest_url,
                title,
                id: CowStr::Borrowed(""),
            },
        }
    }
}

impl<'a> Event<'a> {
    /// The same event in version 0.13.
    pub(crate) fn proved(self) -> proved::Event<'a> {
        match self {
            Event::Start(tag) => proved::Event::Start(tag.proved()),
            Event::End(tag) => proved::Event::End(tag.proved().to_end()),
            Event::Text(text) => proved::Event::Text(text),
            Event::Code(text) => proved::Event::Code(text),
            Event::Html(text) => proved::Event::Html(text),
            Event::FootnoteReference(label) => proved::Event::FootnoteReference(label),
            Event::SoftBreak => proved::Event::SoftBreak,
            Event::HardBreak => proved::Event::HardBreak,
            Event::Rule => proved::Event::Rule,
            Event::TaskListMarker(is_checked) => proved::Event::TaskListMarker(is_checked),
        }
    }
}

/// A text of a heading's attributes as a slice of the source, from which it comes.
fn lent<'a>(text: CowStr<'a>, source: &'a str) -> Option<&'a str> {
    match text {
        CowStr::Borrowed(text) => Some(text),
        other => {
            let at = source.find(&*other)?;
            source.get(at..at + other.len())
        }
    }
}
