//! Tests of the searches in a leaf's text, with ample memory. Most texts are examples of CommonMark 6.

use bitflags::Flags;
use cmark_span_scan::{
    CodeSpan, LoopInstruction, code_span, code_text, inline_html, iterate_special_bytes,
    next_special, special_bytes,
};
use cmark_link_scan::{
    LineBreak, LinkTail, collapsed_end, is_bracketed_label, line_break, link_tail, reference_label,
    title_text,
};
use cmark_text::{BasicEntities, CowStr, Options};
use std::test::Fail;

/// The start and the end of a code span's content, and the end of the span.
fn places(span: CodeSpan) -> (usize, usize, usize) {
    (span.content_start, span.content_end, span.end)
}

#[test]
fn code_spans(rt: HostRuntime) -> Result<(), Fail> {
    assert_eq!(rt; code_span("`foo`", 0, &mut 0).map(places), Some((1, 4, 5)));
    assert_eq!(rt;
        code_span("`` foo ` bar ``", 0, &mut 0).map(places),
        Some((2, 13, 15))
    );
    assert_eq!(rt; code_span("`foo``bar``", 4, &mut 0).map(places), Some((6, 9, 11)));
    assert_eq!(rt; code_span("`foo\\`bar`", 0, &mut 0).map(places), Some((1, 5, 6)));
    Ok(())
}

#[test]
fn no_code_spans(rt: HostRuntime) -> Result<(), Fail> {
    assert!(rt; code_span("```foo``", 0, &mut 0).is_none());
    assert!(rt; code_span("`foo", 0, &mut 0).is_none());
    assert!(rt; code_span("`foo``bar``", 0, &mut 0).is_none());
    assert!(rt; code_span("foo`bar`", 0, &mut 0).is_none());
    Ok(())
}

#[test]
fn code_texts(rt: HostRuntime) -> Result<(), Fail> {
    assert_eq!(rt; code_text(rt.alloc(), " `` ")?.as_str(), "``");
    assert_eq!(rt; code_text(rt.alloc(), "  ``  ")?.as_str(), " `` ");
    assert_eq!(rt; code_text(rt.alloc(), " a")?.as_str(), " a");
    assert_eq!(rt;
        code_text(rt.alloc(), "\u{a0}b\u{a0}")?.as_str(),
        "\u{a0}b\u{a0}"
    );
    assert_eq!(rt; code_text(rt.alloc(), "  ")?.as_str(), "  ");
    assert_eq!(rt; code_text(rt.alloc(), "")?.as_str(), "");
    Ok(())
}

#[test]
fn line_endings_in_code(rt: HostRuntime) -> Result<(), Fail> {
    assert_eq!(rt; code_text(rt.alloc(), "\nfoo \n")?.as_str(), "foo ");
    assert_eq!(rt;
        code_text(rt.alloc(), "foo\r\nbar  \rbaz")?.as_str(),
        "foo bar   baz"
    );
    assert!(rt; matches!(code_text(rt.alloc(), " b ")?, CowStr::Borrowed("b")));
    Ok(())
}

#[test]
fn tags(rt: HostRuntime) -> Result<(), Fail> {
    assert_eq!(rt; inline_html("<a><bab><c2c>", 3), Some(8));
    assert_eq!(rt; inline_html("<a  /><b2\ndata=\"foo\" >", 6), Some(22));
    assert_eq!(rt; inline_html("</a></foo >", 4), Some(11));
    assert_eq!(rt; inline_html("<33> <__>", 0), None);
    assert_eq!(rt; inline_html("<a href=\"hi'> <a href=hi'>", 0), None);
    assert_eq!(rt; inline_html("</a href=\"foo\">", 0), None);
    Ok(())
}

#[test]
fn other_html(rt: HostRuntime) -> Result<(), Fail> {
    assert_eq!(rt;
        inline_html("foo <!-- this is a --\ncomment -->x", 4),
        Some(33)
    );
    assert_eq!(rt; inline_html("foo <!--> foo -->", 4), Some(9));
    assert_eq!(rt; inline_html("foo <?php echo $a; ?>?>", 4), Some(21));
    assert_eq!(rt; inline_html("foo <!ELEMENT br EMPTY>", 4), Some(23));
    assert_eq!(rt; inline_html("foo <![CDATA[>&<]]>", 4), Some(19));
    assert_eq!(rt; inline_html("foo <!-- bar", 4), None);
    Ok(())
}

/// The destination and the title of a link's tail, and its end.
fn parts<'t>(tail: LinkTail<'t>) -> (&'t str, Option<&'t str>, usize) {
    (tail.destination, tail.title, tail.end)
}

#[test]
fn link_tails(rt: HostRuntime) -> Result<(), Fail> {
    assert_eq!(rt;
        link_tail("[link](/uri \"title\")", 6).map(parts),
        Some(("/uri", Some("title"), 20))
    );
    assert_eq!(rt; link_tail("[link]()x", 6).map(parts), Some(("", None, 8)));
    assert_eq!(rt;
        link_tail("[a](<b)c>)", 3).map(parts),
        Some(("b)c", None, 10))
    );
    assert_eq!(rt;
        link_tail("[link](foo(and(bar)))", 6).map(parts),
        Some(("foo(and(bar))", None, 21))
    );
    Ok(())
}

#[test]
fn link_tails_over_lines(rt: HostRuntime) -> Result<(), Fail> {
    assert_eq!(rt;
        link_tail("[link](   /uri\n\"title\"  )", 6).map(parts),
        Some(("/uri", Some("title"), 25))
    );
    assert_eq!(rt;
        link_tail("[a](\r\nb\r'c\rd' )", 3).map(parts),
        Some(("b", Some("c\rd"), 15))
    );
    assert_eq!(rt;
        link_tail("[a](<b>\"c\")", 3).map(parts),
        Some(("b", Some("c"), 11))
    );
    assert_eq!(rt;
        link_tail("[link](\"title\")", 6).map(parts),
        Some(("\"title\"", None, 15))
    );
    Ok(())
}

#[test]
fn no_link_tails(rt: HostRuntime) -> Result<(), Fail> {
    assert!(rt; link_tail("[link](/my uri)", 6).is_none());
    assert!(rt; link_tail("[link](foo\nbar)", 6).is_none());
    assert!(rt; link_tail("[link](foo(and(bar))", 6).is_none());
    assert!(rt; link_tail("[link](/url \"title \"and\" title\")", 6).is_none());
    assert!(rt; link_tail("[link] (/uri)", 6).is_none());
    assert!(rt; link_tail("[a](<b\nc>)", 3).is_none());
    Ok(())
}

#[test]
fn titles(rt: HostRuntime) -> Result<(), Fail> {
    let text = title_text(rt.alloc(), "a\r\n\\\"b&quot;\rc", false, &BasicEntities)?;
    assert_eq!(rt; text.as_str(), "a\n\"b\"\nc");
    let text = title_text(rt.alloc(), "title", false, &BasicEntities)?;
    assert!(rt; matches!(text, CowStr::Borrowed("title")));
    let text = title_text(rt.alloc(), "a\\\\|b", true, &BasicEntities)?;
    assert_eq!(rt; text.as_str(), "a|b");
    Ok(())
}

#[test]
fn labels(rt: HostRuntime) -> Result<(), Fail> {
    let label = reference_label("[foo][bar\\]]", 5);
    assert_eq!(rt; label.map(|it| (it.label, it.end)), Some(("bar\\]", 12)));
    assert!(rt; reference_label("[foo][ref[]", 5).is_none());
    assert!(rt; reference_label("[foo][]", 5).is_none());
    assert_eq!(rt; collapsed_end("[foo][]", 5), Some(7));
    assert_eq!(rt; collapsed_end("[foo] []", 5), None);
    Ok(())
}

#[test]
fn bracketed_labels(rt: HostRuntime) -> Result<(), Fail> {
    assert!(rt; is_bracketed_label("Foo\\! \u{1e9e}"));
    assert!(rt; is_bracketed_label("ref\\["));
    assert!(rt; !is_bracketed_label("ref["));
    assert!(rt; !is_bracketed_label("\n "));
    assert!(rt; !is_bracketed_label(""));
    Ok(())
}

/// Whether a line break is hard, and its start and end.
fn around(found: LineBreak) -> (bool, usize, usize) {
    (found.is_hard, found.start, found.end)
}

#[test]
fn line_breaks(rt: HostRuntime) -> Result<(), Fail> {
    assert_eq!(rt; line_break("foo  \nbaz", 3).map(around), Some((true, 3, 6)));
    assert_eq!(rt;
        line_break("foo\t  \r\nbaz", 3).map(around),
        Some((true, 3, 8))
    );
    assert_eq!(rt; line_break("foo\\\nbaz", 3).map(around), Some((true, 3, 5)));
    assert_eq!(rt; line_break("foo\nbaz", 3).map(around), Some((false, 3, 4)));
    assert_eq!(rt; line_break("foo \rbaz", 3).map(around), Some((false, 4, 5)));
    assert_eq!(rt;
        line_break("foo  \t\nbaz", 3).map(around),
        Some((false, 6, 7))
    );
    Ok(())
}

#[test]
fn no_line_breaks(rt: HostRuntime) -> Result<(), Fail> {
    assert!(rt; line_break("foo  ", 3).is_none());
    assert!(rt; line_break("foo\\", 3).is_none());
    assert!(rt; line_break("foo\\ \nbar", 3).is_none());
    assert!(rt; line_break("foo  b", 3).is_none());
    Ok(())
}

#[test]
fn special_places(rt: HostRuntime) -> Result<(), Fail> {
    let plain = special_bytes(Options::empty());
    assert_eq!(rt; next_special(&plain, b"a|b.c*d", 0), 5);
    assert_eq!(rt; next_special(&plain, b"a|b.c*d", 6), 7);
    let more = special_bytes(Options::ENABLE_TABLES);
    assert_eq!(rt; next_special(&more, b"a|b.c*d", 0), 1);
    let quotes = special_bytes(Options::ENABLE_SMART_PUNCTUATION);
    assert_eq!(rt; next_special(&quotes, b"a|b.c*d", 0), 3);
    Ok(())
}

/// Skips a byte after each `*`, and ends at the first `_`.
fn at_underscore(at: usize, byte: u8) -> LoopInstruction<Option<u8>> {
    match byte {
        b'_' => LoopInstruction::BreakAtWith(at, Some(byte)),
        b'*' => LoopInstruction::ContinueAndSkip(1),
        _ => LoopInstruction::ContinueAndSkip(0),
    }
}

#[test]
fn special_bytes_in_turn(rt: HostRuntime) -> Result<(), Fail> {
    let table = special_bytes(Options::empty());
    let found = iterate_special_bytes(&table, b"a*_b[_", 0, |at, byte| at_underscore(at, byte));
    assert_eq!(rt; found.0, 5);
    assert_eq!(rt; found.1, Some(b'_'));
    let found = iterate_special_bytes(&table, b"a_b*_", 2, |at, byte| at_underscore(at, byte));
    assert_eq!(rt; found.0, 5);
    assert_eq!(rt; found.1, None);
    Ok(())
}
