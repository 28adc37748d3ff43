//! From records to events.

use crate::lend::{self, Attributes};
use crate::record::{kind, part, tag, Record, Records};
use crate::{
    Alignment, BlockQuoteKind, CodeBlockKind, CowStr, Error, Event, HeadingLevel, LinkType,
    MetadataBlockKind, Tag, TagEnd,
};
use std::ops::Range;

/// The records of a text's events, and the place of the next one.
#[derive(Debug)]
pub(crate) struct Decoder<'input> {
    source: &'input str,
    records: Vec<u8>,
    at: usize,
    end: usize,
    /// The range of the event that was returned last.
    range: Range<usize>,
}

impl<'input> Decoder<'input> {
    /// A decoder of the first `end` bytes of records, which are those of the events of `source`.
    pub fn new(source: &'input str, records: Vec<u8>, end: usize) -> Decoder<'input> {
        Decoder {
            source,
            records,
            at: 0,
            end,
            range: 0..0,
        }
    }

    /// The next event, or `None` at the end. After an error, the next call reads the same event again.
    pub fn next(&mut self) -> Result<Option<Event<'input>>, Error> {
        let mut records = Records::of(&self.records[self.at..self.end]);
        let Some(record) = records.next()? else {
            return Ok(None);
        };
        let range = range(&record, self.source)?;
        let event = event(&record, &range, &mut records, self.source)?;
        self.at = self.end - records.len();
        self.range = range;
        Ok(Some(event))
    }

    /// The range of the event that was returned last.
    pub fn range(&self) -> Range<usize> {
        self.range.clone()
    }
}

/// The range of a record, which has to be in the source.
#[inline]
pub(crate) fn range(record: &Record<'_>, source: &str) -> Result<Range<usize>, Error> {
    if record.start <= record.end && record.end <= source.len() as u64 {
        return Ok(record.start as usize..record.end as usize);
    }
    Err(Error::Malformed)
}

/// The event of a record and of the further records after it.
#[inline]
fn event<'i>(
    record: &Record<'_>,
    range: &Range<usize>,
    records: &mut Records<'_>,
    source: &'i str,
) -> Result<Event<'i>, Error> {
    if record.kind == kind::TEXT {
        return Ok(Event::Text(lend::whole(source, range, record.text)?));
    }
    let text = || lend::text(source, range, record.text);
    Ok(match record.kind {
        kind::START => Event::Start(start(record, range, records, source)?),
        kind::END => Event::End(end(record)?),
        kind::CODE => Event::Code(text()?),
        kind::INLINE_MATH => Event::InlineMath(text()?),
        kind::DISPLAY_MATH => Event::DisplayMath(text()?),
        kind::HTML => Event::Html(text()?),
        kind::INLINE_HTML => Event::InlineHtml(text()?),
        kind::FOOTNOTE_REFERENCE => Event::FootnoteReference(text()?),
        kind::SOFT_BREAK => Event::SoftBreak,
        kind::HARD_BREAK => Event::HardBreak,
        kind::RULE => Event::Rule,
        kind::TASK_LIST_MARKER => Event::TaskListMarker(flag(record)?),
        _ => return Err(Error::Malformed),
    })
}

/// The tag of a start.
fn start<'i>(
    record: &Record<'_>,
    range: &Range<usize>,
    records: &mut Records<'_>,
    source: &'i str,
) -> Result<Tag<'i>, Error> {
    let text = || lend::text(source, range, record.text);
    Ok(match record.tag {
        tag::PARAGRAPH => Tag::Paragraph,
        tag::HEADING => heading(record, range, records, source)?,
        tag::BLOCK_QUOTE => Tag::BlockQuote(quote(record)?),
        tag::CODE_BLOCK if flag(record)? => Tag::CodeBlock(CodeBlockKind::Fenced(text()?)),
        tag::CODE_BLOCK => Tag::CodeBlock(CodeBlockKind::Indented),
        tag::HTML_BLOCK => Tag::HtmlBlock,
        tag::LIST if flag(record)? => Tag::List(Some(records.part(part::FIRST_NUMBER)?.start)),
        tag::LIST => Tag::List(None),
        tag::ITEM => Tag::Item,
        tag::FOOTNOTE_DEFINITION => Tag::FootnoteDefinition(text()?),
        tag::DEFINITION_LIST => Tag::DefinitionList,
        tag::DEFINITION_LIST_TITLE => Tag::DefinitionListTitle,
        tag::DEFINITION_LIST_DEFINITION => Tag::DefinitionListDefinition,
        tag::TABLE => Tag::Table(alignments(record.text)?),
        tag::TABLE_HEAD => Tag::TableHead,
        tag::TABLE_ROW => Tag::TableRow,
        tag::TABLE_CELL => Tag::TableCell,
        tag::EMPHASIS => Tag::Emphasis,
        tag::STRONG => Tag::Strong,
        tag::STRIKETHROUGH => Tag::Strikethrough,
        tag::SUPERSCRIPT => Tag::Superscript,
        tag::SUBSCRIPT => Tag::Subscript,
        #[cfg(feature = "highlight")]
        tag::HIGHLIGHT => Tag::Highlight,
        tag::LINK | tag::IMAGE => link(record, range, records, source)?,
        tag::METADATA_BLOCK => Tag::MetadataBlock(metadata(record)?),
        _ => return Err(Error::Malformed),
    })
}

/// The tag of an end.
#[inline]
fn end(record: &Record<'_>) -> Result<TagEnd, Error> {
    Ok(match record.tag {
        tag::PARAGRAPH => TagEnd::Paragraph,
        tag::HEADING => TagEnd::Heading(level(record)?),
        tag::BLOCK_QUOTE => TagEnd::BlockQuote(quote(record)?),
        tag::CODE_BLOCK => TagEnd::CodeBlock,
        tag::HTML_BLOCK => TagEnd::HtmlBlock,
        tag::LIST => TagEnd::List(flag(record)?),
        tag::ITEM => TagEnd::Item,
        tag::FOOTNOTE_DEFINITION => TagEnd::FootnoteDefinition,
        tag::DEFINITION_LIST => TagEnd::DefinitionList,
        tag::DEFINITION_LIST_TITLE => TagEnd::DefinitionListTitle,
        tag::DEFINITION_LIST_DEFINITION => TagEnd::DefinitionListDefinition,
        tag::TABLE => TagEnd::Table,
        tag::TABLE_HEAD => TagEnd::TableHead,
        tag::TABLE_ROW => TagEnd::TableRow,
        tag::TABLE_CELL => TagEnd::TableCell,
        tag::EMPHASIS => TagEnd::Emphasis,
        tag::STRONG => TagEnd::Strong,
        tag::STRIKETHROUGH => TagEnd::Strikethrough,
        tag::SUPERSCRIPT => TagEnd::Superscript,
        tag::SUBSCRIPT => TagEnd::Subscript,
        #[cfg(feature = "highlight")]
        tag::HIGHLIGHT => TagEnd::Highlight,
        tag::LINK => TagEnd::Link,
        tag::IMAGE => TagEnd::Image,
        tag::METADATA_BLOCK => TagEnd::MetadataBlock(metadata(record)?),
        _ => return Err(Error::Malformed),
    })
}

/// The tag of a heading, with the id, the classes and the attributes of its further records.
fn heading<'i>(
    record: &Record<'_>,
    range: &Range<usize>,
    records: &mut Records<'_>,
    source: &'i str,
) -> Result<Tag<'i>, Error> {
    let (mut id, mut classes, mut attrs) = (None, Vec::new(), Vec::new());
    let level = level(record)?;
    let mut next = records.further()?;
    if next.is_some() {
        let place = Attributes::of(source, range);
        let (mut of_id, mut of_classes, mut of_attributes) = (place, place, place);
        while let Some(further) = next {
            match further.tag {
                part::HEADING_ID => id = Some(of_id.text(further.text)?),
                part::CLASS => {
                    classes.try_reserve(1)?;
                    classes.push(of_classes.text(further.text)?);
                }
                part::ATTRIBUTE => {
                    attrs.try_reserve(1)?;
                    let name = of_attributes.text(further.text)?;
                    attrs.push((name, value(records, &mut of_attributes)?));
                }
                _ => return Err(Error::Malformed),
            }
            next = records.further()?;
        }
    }
    Ok(Tag::Heading {
        level,
        id,
        classes,
        attrs,
    })
}

/// The value of the attribute whose name was read last, if it has one.
fn value<'i>(
    records: &mut Records<'_>,
    place: &mut Attributes<'i>,
) -> Result<Option<CowStr<'i>>, Error> {
    match records.further()? {
        Some(record) if record.tag == part::VALUE => place.text(record.text).map(Some),
        Some(record) if record.tag == part::NO_VALUE => Ok(None),
        _ => Err(Error::Malformed),
    }
}

/// The tag of a link or an image, with the title and the id of its further records.
fn link<'i>(
    record: &Record<'_>,
    range: &Range<usize>,
    records: &mut Records<'_>,
    source: &'i str,
) -> Result<Tag<'i>, Error> {
    let text = |record: &Record<'_>| lend::text(source, range, record.text);
    let link_type = link_type(record.data)?;
    let dest_url = text(record)?;
    let title = text(&records.part(part::TITLE)?)?;
    let id = text(&records.part(part::LABEL)?)?;
    Ok(if record.tag == tag::IMAGE {
        Tag::Image {
            link_type,
            dest_url,
            title,
            id,
        }
    } else {
        Tag::Link {
            link_type,
            dest_url,
            title,
            id,
        }
    })
}

/// The link type with this number.
pub(crate) fn link_type(number: u8) -> Result<LinkType, Error> {
    Ok(match number {
        0 => LinkType::Inline,
        1 => LinkType::Reference,
        2 => LinkType::ReferenceUnknown,
        3 => LinkType::Collapsed,
        4 => LinkType::CollapsedUnknown,
        5 => LinkType::Shortcut,
        6 => LinkType::ShortcutUnknown,
        7 => LinkType::Autolink,
        8 => LinkType::Email,
        9 => LinkType::WikiLink { has_pothole: false },
        10 => LinkType::WikiLink { has_pothole: true },
        _ => return Err(Error::Malformed),
    })
}

/// The level of a heading.
fn level(record: &Record<'_>) -> Result<HeadingLevel, Error> {
    HeadingLevel::try_from(usize::from(record.data)).map_err(|_| Error::Malformed)
}

/// The kind of a block quote.
fn quote(record: &Record<'_>) -> Result<Option<BlockQuoteKind>, Error> {
    Ok(Some(match record.data {
        0 => return Ok(None),
        1 => BlockQuoteKind::Note,
        2 => BlockQuoteKind::Tip,
        3 => BlockQuoteKind::Important,
        4 => BlockQuoteKind::Warning,
        5 => BlockQuoteKind::Caution,
        _ => return Err(Error::Malformed),
    }))
}

/// The kind of a metadata block.
fn metadata(record: &Record<'_>) -> Result<MetadataBlockKind, Error> {
    Ok(match flag(record)? {
        false => MetadataBlockKind::YamlStyle,
        true => MetadataBlockKind::PlusesStyle,
    })
}

/// A number that is 0 or 1.
fn flag(record: &Record<'_>) -> Result<bool, Error> {
    match record.data {
        0 => Ok(false),
        1 => Ok(true),
        _ => Err(Error::Malformed),
    }
}

/// The alignments of a table's columns.
fn alignments(columns: &[u8]) -> Result<Vec<Alignment>, Error> {
    let mut found = Vec::new();
    found.try_reserve_exact(columns.len())?;
    for column in columns {
        found.push(match column {
            0 => Alignment::None,
            1 => Alignment::Left,
            2 => Alignment::Center,
            3 => Alignment::Right,
            _ => return Err(Error::Malformed),
        });
    }
    Ok(found)
}
