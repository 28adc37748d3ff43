//! The parser on the texts of pulldown-cmark's own tests.

use pulldown_cmark::{
    html, BrokenLink, CodeBlockKind, CowStr, Event, LinkType, Options, Parser, Tag, TagEnd,
};
use std::ops::Range;

/// The extensions with which most of the texts are read.
fn extensions() -> Options {
    Options::ENABLE_TABLES
        | Options::ENABLE_FOOTNOTES
        | Options::ENABLE_STRIKETHROUGH
        | Options::ENABLE_SUPERSCRIPT
        | Options::ENABLE_SUBSCRIPT
        | Options::ENABLE_TASKLISTS
}

/// The ranges of all events.
fn ranges(text: &str, options: Options) -> Vec<Range<usize>> {
    let events = Parser::new_ext(text, options).into_offset_iter();
    events.map(|(_, range)| range).collect()
}

/// The range of the first event that satisfies a condition.
fn range_of(text: &str, is_it: impl Fn(&Event) -> bool) -> Option<Range<usize>> {
    let mut events = Parser::new_ext(text, extensions()).into_offset_iter();
    events
        .find(|(event, _)| is_it(event))
        .map(|(_, range)| range)
}

/// The HTML of a text without options.
fn html_of(text: &str) -> String {
    let mut out = String::new();
    html::push_html(&mut out, Parser::new(text));
    out
}

/// Asserts that starts and ends match, and that each range is in the text and begins and ends between characters.
fn assert_is_sound(text: &str, options: Options) {
    let mut open = Vec::new();
    for (event, range) in Parser::new_ext(text, options).into_offset_iter() {
        assert!(text.get(range.clone()).is_some(), "{range:?} of {text:?}");
        match event {
            Event::Start(tag) => open.push((tag.to_end(), range)),
            Event::End(tag) => assert_eq!(open.pop(), Some((tag, range)), "{text:?}"),
            _ => {}
        }
    }
    assert_eq!(open, [], "{text:?}");
}

#[test]
fn unusual_texts_are_read() {
    for text in [
        "<",
        "#",
        "\\\\\r\r",
        "\\\r\r\\.\\\\\r\r\\.\\",
        ":\r\t> |\r:\r\t> |\r",
        "|\r-]([^|\r-]([^",
        "|\r\r=][^|\r\r=][^car",
        "[^\r\ra]",
        "\r\r]Z[^\x00\r\r]Z[^\x00",
        "*]0[^\r\r*]0[^",
        "[^\r> `][^\r> `][^\r> `][",
        "\\\u{0d}-\u{09}\\\u{0d}-\u{09}",
        "\u{1bc9f}<td:^\u{1bc9f}",
        "> - \\\n> - ",
        "- \n\n",
        "*\r_<__*\r_<__*\r_<__*\r_<__",
        "_6**6*_*",
        "*__#_#__*",
        "- [n]:Z\r\n\t\t",
        "* [ ] ~![=?\\*\x0c\x00\x00  \x0d* [  1=1\x00\x0d<!]:[=?\\\x0d\x0c\n* [ ] \x0d\x0c%    ",
        "%\n:\u{301}\n\t:",
    ] {
        assert_is_sound(text, extensions());
        assert_is_sound(text, Options::all());
        assert_is_sound(text, Options::ENABLE_DEFINITION_LIST);
        assert_is_sound(text, Options::empty());
    }
}

#[test]
fn short_texts_have_so_many_events() {
    assert_eq!(Parser::new("<").count(), 3);
    assert_eq!(Parser::new("#").count(), 2);
}

#[test]
fn spans_have_their_ranges() {
    let none = Options::empty();
    assert_eq!(
        ranges("*hello* world", none),
        [0..13, 0..7, 1..6, 0..7, 7..13, 0..13]
    );
    assert_eq!(
        ranges("a [b](c) d", none),
        [0..10, 0..2, 2..8, 3..4, 2..8, 8..10, 0..10]
    );
    assert_eq!(ranges("###\n", none), [0..4, 0..4]);
}

#[test]
fn wikilinks_have_their_ranges() {
    let text = "For a new ferrari, [[Wikientry|click here]]!";
    assert_eq!(
        ranges(text, Options::ENABLE_WIKILINKS),
        [0..44, 0..19, 19..43, 31..41, 19..43, 43..44, 0..44]
    );
}

#[test]
fn references_have_their_ranges() {
    let text = "# H1\n[testing][Some reference]\n\n[Some reference]: https://github.com";
    let is_reference = |event: &Event| {
        let Event::Start(Tag::Link { link_type, .. }) = event else {
            return false;
        };
        *link_type == LinkType::Reference
    };
    assert_eq!(range_of(text, is_reference), Some(5..30));
}

#[test]
fn footnote_references_have_their_ranges() {
    let is_reference = |event: &Event| matches!(event, Event::FootnoteReference(_));
    let text = "Testing this[^1] out.\n\n[^1]: Footnote.";
    assert_eq!(range_of(text, is_reference), Some(12..16));
    let text = "Testing this![^1] out.\n\n[^1]: Footnote.";
    assert_eq!(range_of(text, is_reference), Some(13..17));
    let is_mark = |event: &Event| *event == Event::Text("!".into());
    assert_eq!(range_of(text, is_mark), Some(12..13));
}

#[test]
fn tables_have_their_ranges() {
    let text = "a\n\nTesting|This|Outtt\n--|:--:|--:\nSome Data|Other data|asdf";
    assert_eq!(ranges(text, extensions())[3], 3..59);
    let text = "a|b|c\n--|--|--\na|  |c";
    let cells = Parser::new_ext(text, extensions())
        .into_offset_iter()
        .filter(|(event, _)| *event == Event::Start(Tag::TableCell));
    let place = "a|b|c\n--|--|--\na|".len();
    assert_eq!(cells.map(|(_, range)| range).nth(4), Some(place..place + 2));
}

#[test]
fn definitions_are_found_at_the_end_and_after_all_line_endings() {
    assert_eq!(
        html_of("[My site][world]\n\n[world]: https://vincentprouillet.com"),
        "<p><a href=\"https://vincentprouillet.com\">My site</a></p>\n"
    );
    assert_eq!(
        html_of("a [^a]\n\n[^a]: yolo"),
        "<p>a <a href=\"yolo\">^a</a></p>\n"
    );
    assert_eq!(html_of("[test]:\\"), "");
    assert_eq!(html_of("[a]: /u\r\n\n[a]"), "<p><a href=\"/u\">a</a></p>\n");
    assert_eq!(html_of("[a]:"), "<p>[a]:</p>\n");
}

#[test]
fn definitions_are_looked_up() {
    let text = "[a B c]: http://example.com\n[another]: https://google.com\n\ntext\n\n[final ONE]: http://wikipedia.org\n";
    let mut parser = Parser::new(text);
    assert!(parser.reference_definitions().get("a b c").is_some());
    assert!(parser.reference_definitions().get("nope").is_none());
    assert!(parser.next().is_some());
    let key = String::from("final one");
    let found = parser.reference_definitions().get(&key).unwrap();
    let span = found.span.clone();
    assert_eq!(&text[span], "[final ONE]: http://wikipedia.org");
    let mut labels: Vec<_> = parser
        .reference_definitions()
        .iter()
        .map(|(label, found)| (label, &*found.dest))
        .collect();
    labels.sort_unstable();
    assert_eq!(
        labels,
        [
            ("a B c", "http://example.com"),
            ("another", "https://google.com"),
            ("final ONE", "http://wikipedia.org")
        ]
    );
}

#[test]
fn a_callback_is_asked_once_for_each_link() {
    for (text, expected) in [
        ("See also [`g()`][crate::g].", 1),
        ("See also [`g()`][crate::g][].", 1),
        ("[brokenlink1] some other node [brokenlink2]", 2),
    ] {
        let mut asked = 0;
        let mut callback = |_: BrokenLink| {
            asked += 1;
            None
        };
        let parser =
            Parser::new_with_broken_link_callback(text, Options::empty(), Some(&mut callback));
        assert!(parser.count() > 0);
        assert_eq!(asked, expected, "{text:?}");
    }
}

#[test]
fn an_answer_becomes_a_link() {
    let text = "This is a link w/o def: [hello][world]";
    let mut callback = |link: BrokenLink| {
        assert_eq!(&*link.reference, "world");
        assert_eq!(link.link_type, LinkType::Reference);
        assert_eq!(&text[link.span], "[hello][world]");
        Some(("YOLO".into(), "SWAG".to_owned().into()))
    };
    let parser = Parser::new_with_broken_link_callback(text, Options::empty(), Some(&mut callback));
    let links: Vec<_> = parser
        .filter(|event| matches!(event, Event::Start(Tag::Link { .. })))
        .collect();
    assert_eq!(
        links,
        [Event::Start(Tag::Link {
            link_type: LinkType::ReferenceUnknown,
            dest_url: "YOLO".into(),
            title: "SWAG".into(),
            id: "world".into(),
        })]
    );
}

#[test]
fn code_blocks_have_their_kind() {
    let kind_of = |text| {
        let mut kinds = Parser::new(text).filter_map(|event| match event {
            Event::Start(Tag::CodeBlock(kind)) => Some(kind),
            _ => None,
        });
        (kinds.next(), kinds.next())
    };
    assert_eq!(
        kind_of("hello\n```test\ntadam\n```"),
        (Some(CodeBlockKind::Fenced("test".into())), None)
    );
    assert_eq!(
        kind_of("hello\n\n    ```test\n    tadam\nhello"),
        (Some(CodeBlockKind::Indented), None)
    );
}

// A closure has no lifetime parameter of its own, so it takes that of the function.
#[allow(clippy::extra_unused_lifetimes)]
#[test]
fn callbacks_may_be_closures_and_functions<'b>() {
    let local = String::from("xyz");
    let mut closure = |link: BrokenLink<'b>| Some(("#".into(), link.reference));
    fn function(link: BrokenLink<'_>) -> Option<(CowStr<'_>, CowStr<'_>)> {
        Some(("#".into(), link.reference))
    }
    let none = Options::empty();
    let count = |parser: usize| assert_eq!(parser, 3);
    count(Parser::new_with_broken_link_callback("static", none, Some(&mut closure)).count());
    count(Parser::new_with_broken_link_callback("static", none, Some(&mut function)).count());
    count(Parser::new_with_broken_link_callback(&local, none, Some(&mut function)).count());
}

#[test]
fn inline_html_leaves_out_the_prefixes_of_a_quote() {
    let events: Vec<_> = Parser::new("> <foo\n> bar>").collect();
    assert_eq!(
        events,
        [
            Event::Start(Tag::BlockQuote(None)),
            Event::Start(Tag::Paragraph),
            Event::InlineHtml("<foo\nbar>".into()),
            Event::End(TagEnd::Paragraph),
            Event::End(TagEnd::BlockQuote(None)),
        ]
    );
}

#[test]
fn wikilinks_have_a_pothole_or_none() {
    let link = |has_pothole, dest: &'static str| {
        Event::Start(Tag::Link {
            link_type: LinkType::WikiLink { has_pothole },
            dest_url: dest.into(),
            title: "".into(),
            id: "".into(),
        })
    };
    let events: Vec<_> =
        Parser::new_ext("[[foo]] [[bar|baz]]", Options::ENABLE_WIKILINKS).collect();
    assert_eq!(
        events,
        [
            Event::Start(Tag::Paragraph),
            link(false, "foo"),
            Event::Text("foo".into()),
            Event::End(TagEnd::Link),
            Event::Text(" ".into()),
            link(true, "bar"),
            Event::Text("baz".into()),
            Event::End(TagEnd::Link),
            Event::End(TagEnd::Paragraph),
        ]
    );
}

#[test]
fn events_of_nested_wikilinks_grow_with_the_text() {
    let count = |times| {
        let text = "[[[[^(\n|]]]]=]]]]]]]]\n".repeat(times);
        Parser::new_ext(&text, Options::ENABLE_WIKILINKS).count()
    };
    assert!(count(8) <= 20 * count(1));
}
