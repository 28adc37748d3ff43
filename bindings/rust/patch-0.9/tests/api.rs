//! The events of version 0.9.

use pulldown_cmark::{
    html, BrokenLink, CodeBlockKind, Event, HeadingLevel, LinkType, Options, Parser, Tag,
};

#[test]
fn starts_and_ends_have_the_same_tag() {
    let text = "# a {#an-id .b .c}\n\n[d](e 'f')\n\n3. g\n\n```h\ni\n```\n";
    let mut open = Vec::new();
    let mut tags = Vec::new();
    for event in Parser::new_ext(text, Options::all()) {
        match event {
            Event::Start(tag) => {
                tags.push(tag.clone());
                open.push(tag);
            }
            Event::End(tag) => assert_eq!(open.pop(), Some(tag)),
            _ => {}
        }
    }
    assert_eq!(
        tags,
        [
            Tag::Heading(HeadingLevel::H1, Some("an-id"), vec!["b", "c"]),
            Tag::Paragraph,
            Tag::Link(LinkType::Inline, "e".into(), "f".into()),
            Tag::List(Some(3)),
            Tag::Item,
            Tag::CodeBlock(CodeBlockKind::Fenced("h".into())),
        ]
    );
}

#[test]
fn an_html_block_is_its_lines() {
    let events: Vec<_> = Parser::new("<div>\n<b>\n\na <i>\n").collect();
    assert_eq!(
        events,
        [
            Event::Html("<div>\n".into()),
            Event::Html("<b>\n".into()),
            Event::Start(Tag::Paragraph),
            Event::Text("a ".into()),
            Event::Html("<i>".into()),
            Event::End(Tag::Paragraph),
        ]
    );
}

#[test]
fn footnotes_have_the_form_of_0_9() {
    let text = "a [^b]\n\n[^b]: c\n";
    let labels = Parser::new_ext(text, Options::ENABLE_FOOTNOTES)
        .filter(|event| *event == Event::Start(Tag::FootnoteDefinition("b".into())));
    assert_eq!(labels.count(), 1);
}

#[test]
fn a_callback_is_borrowed() {
    let mut callback = |link: BrokenLink| {
        assert_eq!((link.span, link.link_type), (0..3, LinkType::Shortcut));
        Some(("/u".into(), link.reference.to_string().into()))
    };
    let parser =
        Parser::new_with_broken_link_callback("[a]", Options::empty(), Some(&mut callback));
    let mut out = Vec::new();
    html::write_html(&mut out, parser).unwrap();
    assert_eq!(out, b"<p><a href=\"/u\" title=\"a\">a</a></p>\n");
}

#[test]
fn ranges_and_definitions_are_those_of_the_text() {
    let text = "*a*\n\n[b]: /c\n";
    let parser = Parser::new(text);
    assert_eq!(
        &*parser.reference_definitions().get("B").unwrap().dest,
        "/c"
    );
    let ranges: Vec<_> = parser.into_offset_iter().map(|(_, range)| range).collect();
    assert_eq!(ranges, [0..4, 0..3, 1..2, 0..3, 0..4]);
}
