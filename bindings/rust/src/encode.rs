//! From events to records.

use crate::record::{kind, part, tag, Record};
use crate::{
    Alignment, BlockQuoteKind, CodeBlockKind, CowStr, Error, Event, HeadingLevel, LinkType,
    MetadataBlockKind, Tag, TagEnd,
};

/// The name and the value of a heading's attribute.
type Attribute<'a> = (CowStr<'a>, Option<CowStr<'a>>);

/// Appends the records of an event, with a range of 0 to 0.
pub(crate) fn append(records: &mut Vec<u8>, event: &Event<'_>) -> Result<(), Error> {
    let (kind, text) = match event {
        Event::Start(tag) => return append_start(records, tag),
        Event::End(tag) => return append_end(records, *tag),
        Event::TaskListMarker(is_checked) => {
            return append_head(
                records,
                kind::TASK_LIST_MARKER,
                0,
                u8::from(*is_checked),
                "",
            )
        }
        Event::Text(text) => (kind::TEXT, &**text),
        Event::Code(text) => (kind::CODE, &**text),
        Event::InlineMath(text) => (kind::INLINE_MATH, &**text),
        Event::DisplayMath(text) => (kind::DISPLAY_MATH, &**text),
        Event::Html(text) => (kind::HTML, &**text),
        Event::InlineHtml(text) => (kind::INLINE_HTML, &**text),
        Event::FootnoteReference(label) => (kind::FOOTNOTE_REFERENCE, &**label),
        Event::SoftBreak => (kind::SOFT_BREAK, ""),
        Event::HardBreak => (kind::HARD_BREAK, ""),
        Event::Rule => (kind::RULE, ""),
    };
    append_head(records, kind, 0, 0, text)
}

/// Appends one record.
fn append_head(
    records: &mut Vec<u8>,
    kind: u8,
    tag: u8,
    data: u8,
    text: &str,
) -> Result<(), Error> {
    let record = Record {
        kind,
        tag,
        data,
        text: text.as_bytes(),
        ..Record::default()
    };
    record.append_to(records)
}

/// Appends a further record.
pub(crate) fn append_part(records: &mut Vec<u8>, part: u8, text: &str) -> Result<(), Error> {
    append_head(records, kind::FURTHER, part, 0, text)
}

/// Appends the records of a start.
fn append_start(records: &mut Vec<u8>, tag: &Tag<'_>) -> Result<(), Error> {
    let (number, data) = number_of(tag.to_end());
    match tag {
        Tag::Heading {
            id, classes, attrs, ..
        } => {
            append_head(records, kind::START, number, data, "")?;
            append_attributes(records, id.as_ref(), classes, attrs)
        }
        Tag::CodeBlock(CodeBlockKind::Fenced(info)) => {
            append_head(records, kind::START, number, 1, info)
        }
        Tag::List(Some(first)) => append_ordered(records, *first),
        Tag::FootnoteDefinition(label) => append_head(records, kind::START, number, data, label),
        Tag::Table(columns) => append_table(records, columns),
        Tag::Link {
            link_type,
            dest_url,
            title,
            id,
        }
        | Tag::Image {
            link_type,
            dest_url,
            title,
            id,
        } => {
            let link_type = number_of_link(*link_type);
            append_head(records, kind::START, number, link_type, dest_url)?;
            append_part(records, part::TITLE, title)?;
            append_part(records, part::LABEL, id)
        }
        _ => append_head(records, kind::START, number, data, ""),
    }
}

/// Appends the record of an end.
fn append_end(records: &mut Vec<u8>, tag: TagEnd) -> Result<(), Error> {
    let (number, data) = number_of(tag);
    append_head(records, kind::END, number, data, "")
}

/// Appends the further records of a heading.
fn append_attributes(
    records: &mut Vec<u8>,
    id: Option<&CowStr<'_>>,
    classes: &[CowStr<'_>],
    attributes: &[Attribute<'_>],
) -> Result<(), Error> {
    if let Some(id) = id {
        append_part(records, part::HEADING_ID, id)?;
    }
    for class in classes {
        append_part(records, part::CLASS, class)?;
    }
    for (name, value) in attributes {
        append_part(records, part::ATTRIBUTE, name)?;
        match value {
            Some(value) => append_part(records, part::VALUE, value)?,
            None => append_part(records, part::NO_VALUE, "")?,
        }
    }
    Ok(())
}

/// Appends the start of an ordered list.
fn append_ordered(records: &mut Vec<u8>, first: u64) -> Result<(), Error> {
    append_head(records, kind::START, tag::LIST, 1, "")?;
    let record = Record {
        tag: part::FIRST_NUMBER,
        start: first,
        ..Record::default()
    };
    record.append_to(records)
}

/// Appends the start of a table.
fn append_table(records: &mut Vec<u8>, columns: &[Alignment]) -> Result<(), Error> {
    let mut text = Vec::new();
    text.try_reserve_exact(columns.len())?;
    text.extend(columns.iter().map(|column| match column {
        Alignment::None => 0,
        Alignment::Left => 1,
        Alignment::Center => 2,
        Alignment::Right => 3,
    }));
    let record = Record {
        kind: kind::START,
        tag: tag::TABLE,
        text: &text,
        ..Record::default()
    };
    record.append_to(records)
}

/// The numbers of an element's tag and of the data of its end.
fn number_of(tag: TagEnd) -> (u8, u8) {
    match tag {
        TagEnd::Paragraph => (tag::PARAGRAPH, 0),
        TagEnd::Heading(level) => (tag::HEADING, number_of_level(level)),
        TagEnd::BlockQuote(kind) => (tag::BLOCK_QUOTE, kind.map_or(0, number_of_quote)),
        TagEnd::CodeBlock => (tag::CODE_BLOCK, 0),
        TagEnd::HtmlBlock => (tag::HTML_BLOCK, 0),
        TagEnd::List(is_ordered) => (tag::LIST, u8::from(is_ordered)),
        TagEnd::Item => (tag::ITEM, 0),
        TagEnd::FootnoteDefinition => (tag::FOOTNOTE_DEFINITION, 0),
        TagEnd::DefinitionList => (tag::DEFINITION_LIST, 0),
        TagEnd::DefinitionListTitle => (tag::DEFINITION_LIST_TITLE, 0),
        TagEnd::DefinitionListDefinition => (tag::DEFINITION_LIST_DEFINITION, 0),
        TagEnd::Table => (tag::TABLE, 0),
        TagEnd::TableHead => (tag::TABLE_HEAD, 0),
        TagEnd::TableRow => (tag::TABLE_ROW, 0),
        TagEnd::TableCell => (tag::TABLE_CELL, 0),
        TagEnd::Emphasis => (tag::EMPHASIS, 0),
        TagEnd::Strong => (tag::STRONG, 0),
        TagEnd::Strikethrough => (tag::STRIKETHROUGH, 0),
        TagEnd::Superscript => (tag::SUPERSCRIPT, 0),
        TagEnd::Subscript => (tag::SUBSCRIPT, 0),
        #[cfg(feature = "highlight")]
        TagEnd::Highlight => (tag::HIGHLIGHT, 0),
        TagEnd::Link => (tag::LINK, 0),
        TagEnd::Image => (tag::IMAGE, 0),
        TagEnd::MetadataBlock(MetadataBlockKind::YamlStyle) => (tag::METADATA_BLOCK, 0),
        TagEnd::MetadataBlock(MetadataBlockKind::PlusesStyle) => (tag::METADATA_BLOCK, 1),
    }
}

/// The number of a heading's level.
fn number_of_level(level: HeadingLevel) -> u8 {
    level as u8
}

/// The number of an alert's kind.
fn number_of_quote(kind: BlockQuoteKind) -> u8 {
    match kind {
        BlockQuoteKind::Note => 1,
        BlockQuoteKind::Tip => 2,
        BlockQuoteKind::Important => 3,
        BlockQuoteKind::Warning => 4,
        BlockQuoteKind::Caution => 5,
    }
}

/// The number of a link type.
fn number_of_link(link_type: LinkType) -> u8 {
    match link_type {
        LinkType::Inline => 0,
        LinkType::Reference => 1,
        LinkType::ReferenceUnknown => 2,
        LinkType::Collapsed => 3,
        LinkType::CollapsedUnknown => 4,
        LinkType::Shortcut => 5,
        LinkType::ShortcutUnknown => 6,
        LinkType::Autolink => 7,
        LinkType::Email => 8,
        LinkType::WikiLink { has_pothole: false } => 9,
        LinkType::WikiLink { has_pothole: true } => 10,
    }
}
