//! The tags of elements.

use crate::{
    Alignment, BlockQuoteKind, CodeBlockKind, CowStr, HeadingLevel, LinkType, MetadataBlockKind,
};

#[cfg(feature = "serde")]
use serde::{Deserialize, Serialize};

/// An element that has other events inside, as its start names it.
#[derive(Clone, Debug, Eq, PartialEq, Hash)]
#[cfg_attr(feature = "serde", derive(Serialize, Deserialize))]
pub enum Tag<'a> {
    /// A paragraph.
    Paragraph,
    /// A heading. Only with [`Options::ENABLE_HEADING_ATTRIBUTES`](crate::Options::ENABLE_HEADING_ATTRIBUTES) has it an id, classes or
    /// attributes.
    Heading {
        /// The level.
        level: HeadingLevel,
        /// The id: `{#id}`.
        #[cfg_attr(feature = "serde", serde(borrow))]
        id: Option<CowStr<'a>>,
        /// The classes: `{.class}`.
        #[cfg_attr(feature = "serde", serde(borrow))]
        classes: Vec<CowStr<'a>>,
        /// The other attributes with their values: `{name=value}` or `{name}`.
        #[cfg_attr(feature = "serde", serde(borrow))]
        attrs: Vec<(CowStr<'a>, Option<CowStr<'a>>)>,
    },
    /// A block quote, which may be an alert.
    BlockQuote(Option<BlockQuoteKind>),
    /// A code block.
    #[cfg_attr(feature = "serde", serde(borrow))]
    CodeBlock(CodeBlockKind<'a>),
    /// An HTML block.
    HtmlBlock,
    /// A list; if it is ordered, with its first number.
    List(Option<u64>),
    /// An item of a list.
    Item,
    /// The definition of the footnote with this label.
    #[cfg_attr(feature = "serde", serde(borrow))]
    FootnoteDefinition(CowStr<'a>),
    /// A definition list.
    DefinitionList,
    /// A title of a definition list.
    DefinitionListTitle,
    /// A definition of a definition list.
    DefinitionListDefinition,
    /// A table, with the alignment of each column.
    Table(Vec<Alignment>),
    /// The head of a table, which has only cells. The body begins after it.
    TableHead,
    /// A row of a table's body, which has only cells.
    TableRow,
    /// A cell of a table.
    TableCell,
    /// Emphasis.
    Emphasis,
    /// Strong emphasis.
    Strong,
    /// Strikethrough.
    Strikethrough,
    /// Superscript.
    Superscript,
    /// Subscript.
    Subscript,
    /// Highlighted text.
    #[cfg(feature = "highlight")]
    Highlight,
    /// A link.
    Link {
        /// How the link names its destination.
        link_type: LinkType,
        /// The destination.
        dest_url: CowStr<'a>,
        /// The title, which may be empty.
        title: CowStr<'a>,
        /// The label of a reference; empty for other links.
        id: CowStr<'a>,
    },
    /// An image. The events inside are its alternative text.
    Image {
        /// How the image names its destination.
        link_type: LinkType,
        /// The destination.
        dest_url: CowStr<'a>,
        /// The title, which may be empty.
        title: CowStr<'a>,
        /// The label of a reference; empty for other images.
        id: CowStr<'a>,
    },
    /// A metadata block.
    MetadataBlock(MetadataBlockKind),
}

impl<'a> Tag<'a> {
    /// Returns the tag of the element's end.
    ///
    /// ```
    /// use pulldown_cmark::{Tag, TagEnd};
    ///
    /// assert_eq!(Tag::List(Some(3)).to_end(), TagEnd::List(true));
    /// ```
    pub fn to_end(&self) -> TagEnd {
        match self {
            Tag::Paragraph => TagEnd::Paragraph,
            Tag::Heading { level, .. } => TagEnd::Heading(*level),
            Tag::BlockQuote(kind) => TagEnd::BlockQuote(*kind),
            Tag::CodeBlock(_) => TagEnd::CodeBlock,
            Tag::HtmlBlock => TagEnd::HtmlBlock,
            Tag::List(number) => TagEnd::List(number.is_some()),
            Tag::Item => TagEnd::Item,
            Tag::FootnoteDefinition(_) => TagEnd::FootnoteDefinition,
            Tag::DefinitionList => TagEnd::DefinitionList,
            Tag::DefinitionListTitle => TagEnd::DefinitionListTitle,
            Tag::DefinitionListDefinition => TagEnd::DefinitionListDefinition,
            Tag::Table(_) => TagEnd::Table,
            Tag::TableHead => TagEnd::TableHead,
            Tag::TableRow => TagEnd::TableRow,
            Tag::TableCell => TagEnd::TableCell,
            Tag::Emphasis => TagEnd::Emphasis,
            Tag::Strong => TagEnd::Strong,
            Tag::Strikethrough => TagEnd::Strikethrough,
            Tag::Superscript => TagEnd::Superscript,
            Tag::Subscript => TagEnd::Subscript,
            #[cfg(feature = "highlight")]
            Tag::Highlight => TagEnd::Highlight,
            Tag::Link { .. } => TagEnd::Link,
            Tag::Image { .. } => TagEnd::Image,
            Tag::MetadataBlock(kind) => TagEnd::MetadataBlock(*kind),
        }
    }

    /// Returns the same tag with texts of its own, which live as long as needed.
    pub fn into_static(self) -> Tag<'static> {
        match self {
            Tag::Paragraph => Tag::Paragraph,
            Tag::Heading {
                level,
                id,
                classes,
                attrs,
            } => Tag::Heading {
                level,
                id: id.map(CowStr::into_static),
                classes: classes.into_iter().map(CowStr::into_static).collect(),
                attrs: attrs.into_iter().map(into_static_attribute).collect(),
            },
            Tag::BlockQuote(kind) => Tag::BlockQuote(kind),
            Tag::CodeBlock(kind) => Tag::CodeBlock(kind.into_static()),
            Tag::HtmlBlock => Tag::HtmlBlock,
            Tag::List(number) => Tag::List(number),
            Tag::Item => Tag::Item,
            Tag::FootnoteDefinition(label) => Tag::FootnoteDefinition(label.into_static()),
            Tag::DefinitionList => Tag::DefinitionList,
            Tag::DefinitionListTitle => Tag::DefinitionListTitle,
            Tag::DefinitionListDefinition => Tag::DefinitionListDefinition,
            Tag::Table(columns) => Tag::Table(columns),
            Tag::TableHead => Tag::TableHead,
            Tag::TableRow => Tag::TableRow,
            Tag::TableCell => Tag::TableCell,
            Tag::Emphasis => Tag::Emphasis,
            Tag::Strong => Tag::Strong,
            Tag::Strikethrough => Tag::Strikethrough,
            Tag::Superscript => Tag::Superscript,
            Tag::Subscript => Tag::Subscript,
            #[cfg(feature = "highlight")]
            Tag::Highlight => Tag::Highlight,
            Tag::Link {
                link_type,
                dest_url,
                title,
                id,
            } => Tag::Link {
                link_type,
                dest_url: dest_url.into_static(),
                title: title.into_static(),
                id: id.into_static(),
            },
            Tag::Image {
                link_type,
                dest_url,
                title,
                id,
            } => Tag::Image {
                link_type,
                dest_url: dest_url.into_static(),
                title: title.into_static(),
                id: id.into_static(),
            },
            Tag::MetadataBlock(kind) => Tag::MetadataBlock(kind),
        }
    }
}

/// The name and the value of a heading's attribute, with texts of their own.
fn into_static_attribute(
    (name, value): (CowStr<'_>, Option<CowStr<'_>>),
) -> (CowStr<'static>, Option<CowStr<'static>>) {
    (name.into_static(), value.map(CowStr::into_static))
}

/// An element, as its end names it.
#[derive(Copy, Clone, Debug, Eq, PartialEq, Hash)]
#[cfg_attr(feature = "serde", derive(Serialize, Deserialize))]
pub enum TagEnd {
    /// A paragraph.
    Paragraph,
    /// A heading of this level.
    Heading(HeadingLevel),
    /// A block quote, which may be an alert.
    BlockQuote(Option<BlockQuoteKind>),
    /// A code block.
    CodeBlock,
    /// An HTML block.
    HtmlBlock,
    /// A list; true if it is ordered.
    List(bool),
    /// An item of a list.
    Item,
    /// The definition of a footnote.
    FootnoteDefinition,
    /// A definition list.
    DefinitionList,
    /// A title of a definition list.
    DefinitionListTitle,
    /// A definition of a definition list.
    DefinitionListDefinition,
    /// A table.
    Table,
    /// The head of a table.
    TableHead,
    /// A row of a table's body.
    TableRow,
    /// A cell of a table.
    TableCell,
    /// Emphasis.
    Emphasis,
    /// Strong emphasis.
    Strong,
    /// Strikethrough.
    Strikethrough,
    /// Superscript.
    Superscript,
    /// Subscript.
    Subscript,
    /// Highlighted text.
    #[cfg(feature = "highlight")]
    Highlight,
    /// A link.
    Link,
    /// An image.
    Image,
    /// A metadata block.
    MetadataBlock(MetadataBlockKind),
}

impl<'a> From<Tag<'a>> for TagEnd {
    fn from(tag: Tag<'a>) -> TagEnd {
        tag.to_end()
    }
}
