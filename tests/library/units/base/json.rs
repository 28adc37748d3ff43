//! The JSON of events.

use cmark_json::append_given;
use cmark_text::{
    Alignment, BlockQuoteKind, CodeBlockKind, CowStr, Event, HeadingLevel, LinkType,
    MetadataBlockKind, Tag, TagEnd,
};
use std::alloc::{AllocError, Global};
use std::test::Fail;

/// A borrowed text.
fn text_of(text: &str) -> CowStr<'_> {
    CowStr::Borrowed(text)
}

/// A line with the range from 0 to 12 of this event.
fn line_of(alloc: Global, event: Event<'_>) -> Result<String, AllocError> {
    let mut line = String::new(alloc);
    append_given(&mut line, alloc, event, 0..12)?;
    Ok(line)
}

/// Whether the line of an event has this JSON.
fn gives(alloc: Global, event: Event<'_>, json: &str) -> Result<bool, AllocError> {
    let line = line_of(alloc, event)?;
    let mut wanted = String::from_str(alloc, "{\"range\":[0,12],\"event\":")?;
    wanted.push_str(json)?;
    wanted.push_str("}\n")?;
    Ok(line.as_str() == wanted.as_str())
}

/// A link's start.
fn link<'a>(link_type: LinkType) -> Event<'a> {
    Event::Start(Tag::Link {
        link_type,
        dest_url: text_of("/u"),
        title: text_of("t"),
        id: text_of(""),
    })
}

#[test]
fn writes_texts(rt: HostRuntime) -> Result<(), Fail> {
    for (event, json) in [
        (Event::Text(text_of("a b")), "[\"Text\",\"a b\"]"),
        (
            Event::Text(text_of("\"\\\n\t\u{1}/\u{e9}<")),
            "[\"Text\",\"\\\"\\\\\\n\\t\\u0001/\u{e9}<\"]",
        ),
        (Event::Code(text_of("")), "[\"Code\",\"\"]"),
        (Event::InlineMath(text_of("x")), "[\"InlineMath\",\"x\"]"),
        (Event::DisplayMath(text_of("x")), "[\"DisplayMath\",\"x\"]"),
        (Event::Html(text_of("<hr>")), "[\"Html\",\"<hr>\"]"),
        (
            Event::InlineHtml(text_of("<i>")),
            "[\"InlineHtml\",\"<i>\"]",
        ),
        (
            Event::FootnoteReference(text_of("n")),
            "[\"FootnoteReference\",\"n\"]",
        ),
        (Event::SoftBreak, "[\"SoftBreak\"]"),
        (Event::HardBreak, "[\"HardBreak\"]"),
        (Event::Rule, "[\"Rule\"]"),
        (Event::TaskListMarker(true), "[\"TaskListMarker\",true]"),
    ] {
        assert!(rt; gives(rt.alloc(), event, json)?, "{json}");
    }
    Ok(())
}

#[test]
fn writes_headings(rt: HostRuntime) -> Result<(), Fail> {
    let alloc = rt.alloc();
    let bare = Event::Start(Tag::Heading {
        level: HeadingLevel::H1,
        id: None,
        classes: Vec::new(alloc),
        attrs: Vec::new(alloc),
    });
    assert!(rt; gives(alloc, bare, "[\"Start\",[\"Heading\",1,null,[],[]]]")?);
    let mut classes = Vec::new(alloc);
    classes.push(text_of("b"))?;
    classes.push(text_of("c"))?;
    let mut attrs = Vec::new(alloc);
    attrs.push((text_of("d"), None))?;
    attrs.push((text_of("e"), Some(text_of("f"))))?;
    let full = Event::Start(Tag::Heading {
        level: HeadingLevel::H6,
        id: Some(text_of("a")),
        classes,
        attrs,
    });
    assert!(rt;
        gives(
            alloc,
            full,
            "[\"Start\",[\"Heading\",6,\"a\",[\"b\",\"c\"],[[\"d\",null],[\"e\",\"f\"]]]]"
        )?
    );
    let end = Event::End(TagEnd::Heading(HeadingLevel::H1));
    assert!(rt; gives(alloc, end, "[\"End\",[\"Heading\",1]]")?);
    Ok(())
}

#[test]
fn writes_blocks(rt: HostRuntime) -> Result<(), Fail> {
    for (tag, json) in [
        (Tag::Paragraph, "[\"Start\",[\"Paragraph\"]]"),
        (Tag::BlockQuote(None), "[\"Start\",[\"BlockQuote\",null]]"),
        (
            Tag::BlockQuote(Some(BlockQuoteKind::Note)),
            "[\"Start\",[\"BlockQuote\",\"Note\"]]",
        ),
        (
            Tag::CodeBlock(CodeBlockKind::Fenced(text_of("c++ x"))),
            "[\"Start\",[\"CodeBlock\",[\"Fenced\",\"c++ x\"]]]",
        ),
        (
            Tag::CodeBlock(CodeBlockKind::Indented),
            "[\"Start\",[\"CodeBlock\",[\"Indented\"]]]",
        ),
        (Tag::HtmlBlock, "[\"Start\",[\"HtmlBlock\"]]"),
        (Tag::List(Some(3)), "[\"Start\",[\"List\",3]]"),
        (Tag::List(None), "[\"Start\",[\"List\",null]]"),
        (Tag::Item, "[\"Start\",[\"Item\"]]"),
        (
            Tag::FootnoteDefinition(text_of("n")),
            "[\"Start\",[\"FootnoteDefinition\",\"n\"]]",
        ),
        (
            Tag::MetadataBlock(MetadataBlockKind::YamlStyle),
            "[\"Start\",[\"MetadataBlock\",\"YamlStyle\"]]",
        ),
    ] {
        assert!(rt; gives(rt.alloc(), Event::Start(tag), json)?, "{json}");
    }
    Ok(())
}

#[test]
fn writes_tables(rt: HostRuntime) -> Result<(), Fail> {
    let columns = vec![in rt.alloc();
        Alignment::None,
        Alignment::Left,
        Alignment::Center,
        Alignment::Right,
    ]?;
    let table = Event::Start(Tag::Table(columns));
    assert!(rt;
        gives(
            rt.alloc(),
            table,
            "[\"Start\",[\"Table\",[\"None\",\"Left\",\"Center\",\"Right\"]]]"
        )?
    );
    let head = Event::Start(Tag::TableHead);
    assert!(rt; gives(rt.alloc(), head, "[\"Start\",[\"TableHead\"]]")?);
    Ok(())
}

#[test]
fn writes_links(rt: HostRuntime) -> Result<(), Fail> {
    for (event, json) in [
        (
            link(LinkType::Inline),
            "[\"Start\",[\"Link\",\"Inline\",\"/u\",\"t\",\"\"]]",
        ),
        (
            link(LinkType::WikiLink { has_pothole: true }),
            "[\"Start\",[\"Link\",[\"WikiLink\",true],\"/u\",\"t\",\"\"]]",
        ),
        (
            Event::Start(Tag::Image {
                link_type: LinkType::ShortcutUnknown,
                dest_url: text_of(""),
                title: text_of(""),
                id: text_of("i"),
            }),
            "[\"Start\",[\"Image\",\"ShortcutUnknown\",\"\",\"\",\"i\"]]",
        ),
    ] {
        assert!(rt; gives(rt.alloc(), event, json)?, "{json}");
    }
    Ok(())
}

#[test]
fn writes_ends(rt: HostRuntime) -> Result<(), Fail> {
    for (tag, json) in [
        (TagEnd::Paragraph, "[\"End\",[\"Paragraph\"]]"),
        (TagEnd::BlockQuote(None), "[\"End\",[\"BlockQuote\",null]]"),
        (
            TagEnd::BlockQuote(Some(BlockQuoteKind::Caution)),
            "[\"End\",[\"BlockQuote\",\"Caution\"]]",
        ),
        (TagEnd::CodeBlock, "[\"End\",[\"CodeBlock\"]]"),
        (TagEnd::List(true), "[\"End\",[\"List\",true]]"),
        (TagEnd::Item, "[\"End\",[\"Item\"]]"),
        (TagEnd::Link, "[\"End\",[\"Link\"]]"),
        (
            TagEnd::MetadataBlock(MetadataBlockKind::PlusesStyle),
            "[\"End\",[\"MetadataBlock\",\"PlusesStyle\"]]",
        ),
    ] {
        assert!(rt; gives(rt.alloc(), Event::End(tag), json)?, "{json}");
    }
    Ok(())
}
