//! Flat records, compared with bytes that are written here by the layout of the crate's README.

use cmark_flat::{
    DecodeError, append_definition, append_event, append_given, append_question, decode,
    decode_replies, render,
};
use cmark_text::{Alignment, CodeBlockKind, CowStr, Event, HeadingLevel, LinkType, Tag, TagEnd};
use std::alloc::{AllocError, Global};
use std::test::Fail;

/// A record, as its kind, its tag, its data, its start, its end and its text.
type Row<'a> = (u8, u8, u8, u8, u8, &'a str);

/// A borrowed text.
fn text_of(text: &str) -> CowStr<'_> {
    CowStr::Borrowed(text)
}

/// Appends a number below 256 as eight bytes, the lowest first.
fn put_wide(out: &mut Vec<u8>, number: u8) -> Result<(), AllocError> {
    out.extend_from_slice(&[number, 0, 0, 0, 0, 0, 0, 0])
}

/// The bytes of these records.
fn bytes_of(alloc: Global, rows: &[Row<'_>]) -> Result<Vec<u8>, AllocError> {
    let mut out = Vec::new(alloc);
    for (kind, tag, data, start, end, text) in rows {
        out.extend_from_slice(&[*kind, *tag, *data, 0, 0, 0, 0, 0])?;
        put_wide(&mut out, *start)?;
        put_wide(&mut out, *end)?;
        put_wide(&mut out, text.len() as u8)?;
        out.extend_from_slice(text.as_bytes())?;
    }
    Ok(out)
}

/// Whether an event with the range from 3 to 200 has these records.
fn gives(alloc: Global, event: Event<'_>, rows: &[Row<'_>]) -> Result<bool, AllocError> {
    let mut out = Vec::new(alloc);
    append_given(&mut out, event, 3..200)?;
    let wanted = bytes_of(alloc, rows)?;
    Ok(out.as_slice() == wanted.as_slice())
}

#[test]
fn writes_a_text(rt: HostRuntime) -> Result<(), Fail> {
    let mut out = Vec::new(rt.alloc());
    append_event(&mut out, &Event::Text(text_of("\u{e9}!")), &(1..258))?;
    let wanted = [
        3, 0, 0, 0, 0, 0, 0, 0, 1, 0, 0, 0, 0, 0, 0, 0, 2, 1, 0, 0, 0, 0, 0, 0, 3, 0, 0, 0, 0, 0,
        0, 0, 0xc3, 0xa9, 0x21,
    ];
    assert!(rt; out.as_slice() == wanted.as_slice());
    Ok(())
}

#[test]
fn writes_a_heading(rt: HostRuntime) -> Result<(), Fail> {
    let alloc = rt.alloc();
    let heading = Tag::Heading {
        level: HeadingLevel::H2,
        id: Some(text_of("i")),
        classes: vec![in alloc; text_of("c"), text_of("d")]?,
        attrs: vec![in alloc; (text_of("n"), Some(text_of("v"))), (text_of("m"), None)]?,
    };
    let rows = [
        (1, 2, 2, 3, 200, ""),
        (0, 3, 0, 0, 0, "i"),
        (0, 4, 0, 0, 0, "c"),
        (0, 4, 0, 0, 0, "d"),
        (0, 5, 0, 0, 0, "n"),
        (0, 6, 0, 0, 0, "v"),
        (0, 5, 0, 0, 0, "m"),
        (0, 7, 0, 0, 0, ""),
    ];
    assert!(rt; gives(alloc, Event::Start(heading), &rows)?);
    Ok(())
}

#[test]
fn writes_links_lists_tables_and_ends(rt: HostRuntime) -> Result<(), Fail> {
    let alloc = rt.alloc();
    let link = Tag::Link {
        link_type: LinkType::WikiLink { has_pothole: true },
        dest_url: text_of("/u"),
        title: text_of("t"),
        id: text_of(""),
    };
    let rows = [
        (1, 22, 10, 3, 200, "/u"),
        (0, 1, 0, 0, 0, "t"),
        (0, 2, 0, 0, 0, ""),
    ];
    assert!(rt; gives(alloc, Event::Start(link), &rows)?);
    let list = Event::Start(Tag::List(Some(7)));
    assert!(rt; gives(alloc, list, &[(1, 6, 1, 3, 200, ""), (0, 8, 0, 7, 0, "")])?);
    let table = Tag::Table(vec![in alloc; Alignment::Right, Alignment::None]?);
    assert!(rt; gives(alloc, Event::Start(table), &[(1, 12, 0, 3, 200, "\u{3}\u{0}")])?);
    let code = Tag::CodeBlock(CodeBlockKind::Fenced(text_of("c")));
    assert!(rt; gives(alloc, Event::Start(code), &[(1, 4, 1, 3, 200, "c")])?);
    let end = Event::End(TagEnd::Heading(HeadingLevel::H6));
    assert!(rt; gives(alloc, end, &[(2, 2, 6, 3, 200, "")])?);
    assert!(rt; gives(alloc, Event::TaskListMarker(true), &[(13, 0, 1, 3, 200, "")])?);
    Ok(())
}

#[test]
fn decodes_events(rt: HostRuntime) -> Result<(), Fail> {
    let alloc = rt.alloc();
    let rows = [
        (1, 2, 2, 3, 200, ""),
        (0, 3, 0, 0, 0, "i"),
        (0, 4, 0, 0, 0, "c"),
        (0, 5, 0, 0, 0, "n"),
        (0, 7, 0, 0, 0, ""),
        (3, 0, 0, 5, 6, "a"),
        (2, 2, 2, 3, 200, ""),
    ];
    let bytes = bytes_of(alloc, &rows)?;
    let Ok(events) = decode(alloc, bytes.as_slice()) else {
        return Err(Fail::from("malformed"));
    };
    let [start, text, end] = events.as_slice() else {
        return Err(Fail::from("three events"));
    };
    let heading = Event::Start(Tag::Heading {
        level: HeadingLevel::H2,
        id: Some(text_of("i")),
        classes: vec![in alloc; text_of("c")]?,
        attrs: vec![in alloc; (text_of("n"), None)]?,
    });
    assert!(rt; start.event == heading && start.range == (3..200));
    assert!(rt; text.event == Event::Text(text_of("a")) && text.range == (5..6));
    assert!(rt; end.event == Event::End(TagEnd::Heading(HeadingLevel::H2)));
    Ok(())
}

#[test]
fn renders_records(rt: HostRuntime) -> Result<(), Fail> {
    let alloc = rt.alloc();
    let rows = [
        (1, 1, 0, 0, 9, ""),
        (1, 22, 0, 0, 9, "/u"),
        (0, 1, 0, 0, 0, "t"),
        (0, 2, 0, 0, 0, ""),
        (3, 0, 0, 1, 2, "a<"),
        (2, 22, 0, 0, 9, ""),
        (2, 1, 0, 0, 9, ""),
    ];
    let bytes = bytes_of(alloc, &rows)?;
    let Ok(html) = render(alloc, bytes.as_slice()) else {
        return Err(Fail::from("malformed"));
    };
    assert!(rt; html.as_str() == "<p><a href=\"/u\" title=\"t\">a&lt;</a></p>\n");
    Ok(())
}

#[test]
fn refuses_what_is_no_record_of_an_event(rt: HostRuntime) -> Result<(), Fail> {
    let alloc = rt.alloc();
    for rows in [
        [(0, 1, 0, 0, 0, ""), (10, 0, 0, 0, 1, "")],
        [(14, 0, 0, 0, 1, ""), (10, 0, 0, 0, 1, "")],
        [(1, 25, 0, 0, 1, ""), (10, 0, 0, 0, 1, "")],
        [(1, 2, 7, 0, 1, ""), (10, 0, 0, 0, 1, "")],
        [(1, 22, 0, 0, 1, ""), (0, 2, 0, 0, 0, "")],
        [(1, 1, 0, 0, 1, ""), (0, 1, 0, 0, 0, "")],
        [(1, 6, 0, 0, 1, ""), (0, 8, 0, 1, 0, "")],
        [(10, 0, 0, 0, 1, ""), (12, 0, 0, 0, 1, "a")],
    ] {
        let bytes = bytes_of(alloc, &rows)?;
        let found = render(alloc, bytes.as_slice());
        assert!(rt; matches!(&found, Err(DecodeError::Malformed)));
    }
    let whole = bytes_of(alloc, &[(3, 0, 0, 0, 1, "a")])?;
    let short = &whole.as_slice()[..whole.len() - 1];
    assert!(rt; matches!(&render(alloc, short), Err(DecodeError::Malformed)));
    Ok(())
}

#[test]
fn writes_definitions(rt: HostRuntime) -> Result<(), Fail> {
    let alloc = rt.alloc();
    let mut out = Vec::new(alloc);
    append_definition(&mut out, "l", "/u", Some(""), &(3..200))?;
    append_definition(&mut out, "m", "", None, &(200..255))?;
    let rows = [
        (14, 0, 0, 3, 200, "/u"),
        (0, 1, 0, 0, 0, ""),
        (0, 2, 0, 0, 0, "l"),
        (14, 0, 0, 200, 255, ""),
        (0, 2, 0, 0, 0, "m"),
    ];
    assert!(rt; out.as_slice() == bytes_of(alloc, &rows)?.as_slice());
    Ok(())
}

#[test]
fn writes_questions(rt: HostRuntime) -> Result<(), Fail> {
    let alloc = rt.alloc();
    for (link_type, data) in [
        (LinkType::Reference, 2),
        (LinkType::Collapsed, 4),
        (LinkType::Shortcut, 6),
    ] {
        let mut out = Vec::new(alloc);
        append_question(&mut out, link_type, "l", &(3..200))?;
        let row = bytes_of(alloc, &[(15, 0, data, 3, 200, "l")])?;
        assert!(rt; out.as_slice() == row.as_slice());
    }
    Ok(())
}

#[test]
fn decodes_replies(rt: HostRuntime) -> Result<(), Fail> {
    let alloc = rt.alloc();
    let rows = [
        (16, 0, 1, 3, 200, "/u"),
        (0, 1, 0, 0, 0, "t"),
        (16, 0, 0, 7, 9, ""),
    ];
    let bytes = bytes_of(alloc, &rows)?;
    let Ok(replies) = decode_replies(alloc, bytes.as_slice()) else {
        return Err(Fail::from("malformed"));
    };
    let [first, second] = replies.as_slice() else {
        return Err(Fail::from("two replies"));
    };
    let Some(answer) = first.answer else {
        return Err(Fail::from("an answer"));
    };
    assert!(rt; (first.start, first.end) == (3, 200) && (second.start, second.end) == (7, 9));
    assert!(rt; answer.dest_url == "/u" && answer.title == "t" && second.answer.is_none());
    Ok(())
}

#[test]
fn refuses_what_is_no_reply(rt: HostRuntime) -> Result<(), Fail> {
    let alloc = rt.alloc();
    for rows in [
        [(16, 0, 1, 0, 3, "/u"), (16, 0, 0, 4, 5, "")],
        [(16, 0, 0, 0, 3, "/u"), (16, 0, 0, 4, 5, "")],
        [(16, 0, 0, 0, 3, ""), (0, 1, 0, 0, 0, "t")],
        [(16, 0, 1, 0, 3, "/u"), (0, 2, 0, 0, 0, "t")],
        [(16, 0, 2, 0, 3, "/u"), (0, 1, 0, 0, 0, "t")],
        [(16, 1, 0, 0, 3, ""), (16, 0, 0, 4, 5, "")],
        [(15, 0, 0, 0, 3, ""), (16, 0, 0, 4, 5, "")],
        [(0, 1, 0, 0, 0, "t"), (16, 0, 0, 4, 5, "")],
    ] {
        let bytes = bytes_of(alloc, &rows)?;
        let found = decode_replies(alloc, bytes.as_slice());
        assert!(rt; matches!(&found, Err(DecodeError::Malformed)));
    }
    Ok(())
}
