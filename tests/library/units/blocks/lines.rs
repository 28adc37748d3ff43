//! Lines of the standard's examples, each call on its happy path.

use bitflags::Flags;
use cmark_line_rules::{
    CodeOrHtml, Container, ContainerStart, Continuation, FootnoteStart, HtmlKind, LineRest,
    Opening, ends_at_once, interrupts, underlines, what_opens,
};
use cmark_text::{BlockQuoteKind, HeadingLevel, Options};
use std::test::Fail;

/// The line after the marker of the container that it begins; the line itself if it begins no container.
fn inside<'a>(rest: LineRest<'a>) -> LineRest<'a> {
    match what_opens(rest, Options::empty()) {
        Opening::Nests(ContainerStart::BlockQuote(inside)) => inside,
        Opening::Nests(ContainerStart::Item(_, inside)) => inside,
        _ => rest,
    }
}

/// The character, the number and the width of the list item that the line begins, if it begins one.
fn item(rest: LineRest<'_>) -> Option<(u8, Option<u64>, usize)> {
    match what_opens(rest, Options::empty()) {
        Opening::Nests(ContainerStart::Item(item, _)) => Some((
            item.delimiter,
            item.number,
            item.width,
        )),
        _ => None,
    }
}

/// The footnote definition that the line begins with these options, if it begins one, and the line after its marker.
fn footnote<'a>(rest: LineRest<'a>, options: Options) -> Option<(FootnoteStart, LineRest<'a>)> {
    match what_opens(rest, options) {
        Opening::Nests(ContainerStart::Footnote(footnote, inside)) => Some((footnote, inside)),
        _ => None,
    }
}

fn begins_code(rest: LineRest<'_>) -> bool {
    matches!(what_opens(rest, Options::empty()), Opening::IndentedCode)
}

#[test]
fn a_line_ends_before_its_ending(rt: HostRuntime) -> Result<(), Fail> {
    let text = b"one\r\n  two \nlast";
    let first = LineRest::new(text, 0);
    assert_eq!(rt; (first.content_end(), first.line_end()), (3, 5));
    let second = LineRest::new(text, 5);
    assert_eq!(rt;
        (
            second.begin(),
            second.words_begin(),
            second.content_end(),
            second.line_end()
        ),
        (5, 7, 11, 12)
    );
    assert_eq!(rt; second.words(), b"two ".as_slice());
    assert_eq!(rt; second.bytes(), b"  two ".as_slice());
    let last = LineRest::new(text, 12);
    assert_eq!(rt; (last.content_end(), last.line_end()), (16, 16));
    let none = LineRest::new(text, 16);
    assert_eq!(rt; (none.is_blank(), none.line_end()), (true, 16));
    Ok(())
}

#[test]
fn a_tab_is_indent_up_to_the_next_stop(rt: HostRuntime) -> Result<(), Fail> {
    let line = LineRest::new(b" \t a", 0);
    assert_eq!(rt; line.indent_upto(9), 5);
    assert_eq!(rt; line.indent_upto(4), 4);
    assert_eq!(rt; line.is_blank(), false);
    let cut = line.without_indent_upto(2);
    assert_eq!(rt; (cut.begin(), cut.remaining_space()), (2, 2));
    assert_eq!(rt; cut.bytes(), b" a".as_slice());
    assert_eq!(rt; line.after_indent().begin(), 3);
    Ok(())
}

#[test]
fn a_tab_before_an_item_s_later_line(rt: HostRuntime) -> Result<(), Fail> {
    // CommonMark 0.31.2, examples 4 and 5
    let later = Container::Item { width: 4 }.keeps(false, LineRest::new(b"\tbar", 0));
    assert_eq!(rt; later.map(|rest| rest.begin()), Some(1));
    let code = Container::Item { width: 2 }.keeps(false, LineRest::new(b"\t\tbar", 0));
    assert_eq!(rt; code.map(begins_code), Some(true));
    assert_eq!(rt;
        code.map(|rest| rest.without_indent_upto(4).remaining_space()),
        Some(2)
    );
    Ok(())
}

#[test]
fn a_tab_after_a_marker(rt: HostRuntime) -> Result<(), Fail> {
    // CommonMark 0.31.2, examples 6 and 7
    let block_quote = inside(LineRest::new(b">\t\tfoo", 0));
    assert_eq!(rt;
        (begins_code(block_quote), block_quote.indent_upto(9)),
        (true, 6)
    );
    let line = LineRest::new(b"-\t\tfoo", 0);
    assert_eq!(rt; item(line), Some((b'-', None, 2)));
    assert_eq!(rt;
        (begins_code(inside(line)), inside(line).indent_upto(9)),
        (true, 6)
    );
    Ok(())
}

#[test]
fn a_numbered_item_in_a_quote(rt: HostRuntime) -> Result<(), Fail> {
    // CommonMark 0.31.2, example 259
    let line = inside(inside(LineRest::new(b"   > > 1.  one", 0)));
    assert_eq!(rt; item(line), Some((b'.', Some(1), 4)));
    assert_eq!(rt; inside(line).begin(), 11);
    Ok(())
}

#[test]
fn a_quote_keeps_lines_with_its_marker(rt: HostRuntime) -> Result<(), Fail> {
    let kept = Container::BlockQuote.keeps(false, LineRest::new(b"  > bar", 0));
    assert_eq!(rt; kept.map(|rest| rest.begin()), Some(4));
    assert_eq!(rt;
        Container::BlockQuote
            .keeps(false, LineRest::new(b"bar", 0))
            .is_none(),
        true
    );
    assert_eq!(rt;
        Container::BlockQuote
            .keeps(false, LineRest::new(b"    > bar", 0))
            .is_none(),
        true
    );
    Ok(())
}

#[test]
fn a_tag_directly_after_a_marker_makes_an_alert(rt: HostRuntime) -> Result<(), Fail> {
    let tag = LineRest::new(b"[!Tip] ", 0);
    assert_eq!(rt; tag.alert_kind(true), Some(BlockQuoteKind::Tip));
    assert_eq!(rt; tag.alert_kind(false), None);
    let indented = LineRest::new(b" [!Tip]", 0);
    assert_eq!(rt; indented.alert_kind(true), None);
    Ok(())
}

#[test]
fn an_item_keeps_blank_lines_but_after_a_bare_first_one(rt: HostRuntime) -> Result<(), Fail> {
    // CommonMark 0.31.2, example 280
    let item = Container::Item { width: 2 };
    let blank = LineRest::new(b" \nfoo", 0);
    assert_eq!(rt;
        item.keeps(false, blank).map(|rest| rest.is_blank()),
        Some(true)
    );
    assert_eq!(rt; item.keeps(true, blank).is_none(), true);
    assert_eq!(rt;
        item.keeps(true, LineRest::new(b"  foo", 0))
            .map(|rest| rest.begin()),
        Some(2)
    );
    assert_eq!(rt;
        item.keeps(false, LineRest::new(b" foo", 0)).is_none(),
        true
    );
    Ok(())
}

#[test]
fn leaf_blocks(rt: HostRuntime) -> Result<(), Fail> {
    assert_eq!(rt;
        matches!(
            what_opens(LineRest::new(b" \t", 0), Options::empty()),
            Opening::Blank
        ),
        true
    );
    assert_eq!(rt;
        matches!(
            what_opens(LineRest::new(b"- - -", 0), Options::empty()),
            Opening::ThematicBreak
        ),
        true
    );
    assert_eq!(rt;
        matches!(
            what_opens(LineRest::new(b"## a", 0), Options::empty()),
            Opening::AtxHeading(HeadingLevel::H2)
        ),
        true
    );
    assert_eq!(rt;
        matches!(
            what_opens(LineRest::new(b"#a", 0), Options::empty()),
            Opening::Plain
        ),
        true
    );
    Ok(())
}

#[test]
fn html_and_brackets_begin_blocks(rt: HostRuntime) -> Result<(), Fail> {
    assert_eq!(rt;
        matches!(
            what_opens(LineRest::new(b" <div", 0), Options::empty()),
            Opening::Html(HtmlKind::Block)
        ),
        true
    );
    assert_eq!(rt;
        matches!(
            what_opens(LineRest::new(b"<a>", 0), Options::empty()),
            Opening::Html(HtmlKind::Tag)
        ),
        true
    );
    assert_eq!(rt;
        matches!(
            what_opens(LineRest::new(b"[a]: b", 0), Options::empty()),
            Opening::Bracket
        ),
        true
    );
    assert_eq!(rt;
        matches!(
            what_opens(LineRest::new(b"``` a`", 0), Options::empty()),
            Opening::Plain
        ),
        true
    );
    Ok(())
}

#[test]
fn a_fence_with_an_info_string(rt: HostRuntime) -> Result<(), Fail> {
    let places = match what_opens(LineRest::new(b"  ~~~~ aa  ", 0), Options::empty()) {
        Opening::FencedCode { indent, fence } => {
            Some((
                indent,
                fence.delimiter,
                fence.run_length,
                fence.info_start,
                fence.info_end,
            ))
        }
        _ => None,
    };
    assert_eq!(rt; places, Some((2, b'~', 4, 5, 7)));
    Ok(())
}

#[test]
fn items_that_interrupt_a_paragraph(rt: HostRuntime) -> Result<(), Fail> {
    // CommonMark 0.31.2, examples 187, 285, 304 and 305
    assert_eq!(rt;
        interrupts(LineRest::new(b"14.  The number", 0), true, Options::empty()),
        false
    );
    assert_eq!(rt;
        interrupts(
            LineRest::new(b"14.  The number", 0),
            false,
            Options::empty()
        ),
        true
    );
    assert_eq!(rt;
        interrupts(LineRest::new(b"1.  The number", 0), true, Options::empty()),
        true
    );
    assert_eq!(rt;
        interrupts(LineRest::new(b"*", 0), true, Options::empty()),
        false
    );
    Ok(())
}

#[test]
fn html_and_quotes_beside_a_paragraph(rt: HostRuntime) -> Result<(), Fail> {
    assert_eq!(rt;
        interrupts(LineRest::new(b"<a>", 0), true, Options::empty()),
        false
    );
    assert_eq!(rt;
        interrupts(LineRest::new(b"<div>", 0), true, Options::empty()),
        true
    );
    assert_eq!(rt;
        interrupts(LineRest::new(b"> a", 0), true, Options::empty()),
        true
    );
    assert_eq!(rt;
        interrupts(LineRest::new(b"    > a", 0), true, Options::empty()),
        false
    );
    assert_eq!(rt;
        interrupts(LineRest::new(b"", 0), true, Options::empty()),
        true
    );
    assert_eq!(rt;
        interrupts(LineRest::new(b"a", 0), true, Options::empty()),
        false
    );
    Ok(())
}

#[test]
fn setext_underlines(rt: HostRuntime) -> Result<(), Fail> {
    // CommonMark 0.31.2, examples 86 to 88
    assert_eq!(rt;
        underlines(LineRest::new(b"   ----      ", 0)),
        Some(HeadingLevel::H2)
    );
    assert_eq!(rt; underlines(LineRest::new(b"=", 0)), Some(HeadingLevel::H1));
    assert_eq!(rt; underlines(LineRest::new(b"    ---", 0)), None);
    assert_eq!(rt; underlines(LineRest::new(b"= =", 0)), None);
    Ok(())
}

#[test]
fn continuation_lines_of_indented_code(rt: HostRuntime) -> Result<(), Fail> {
    let code = CodeOrHtml::Indented;
    assert!(rt;
        matches!(
            code.continuation(LineRest::new(b"    a", 0)),
            Continuation::GoesOn
        )
    );
    assert!(rt;
        matches!(
            code.continuation(LineRest::new(b"      ", 0)),
            Continuation::Waits
        )
    );
    assert!(rt;
        matches!(
            code.continuation(LineRest::new(b"  a", 0)),
            Continuation::Stops
        )
    );
    Ok(())
}

#[test]
fn continuation_lines_of_fenced_code(rt: HostRuntime) -> Result<(), Fail> {
    let fenced = CodeOrHtml::Fenced {
        delimiter: b'`',
        run_length: 4,
        indent: 0,
    };
    assert!(rt;
        matches!(
            fenced.continuation(LineRest::new(b"```", 0)),
            Continuation::GoesOn
        )
    );
    assert!(rt;
        matches!(
            fenced.continuation(LineRest::new(b"  ````` ", 0)),
            Continuation::Closes
        )
    );
    assert!(rt;
        matches!(
            fenced.continuation(LineRest::new(b"    ````", 0)),
            Continuation::GoesOn
        )
    );
    Ok(())
}

#[test]
fn continuation_lines_of_html(rt: HostRuntime) -> Result<(), Fail> {
    let block = CodeOrHtml::Html(HtmlKind::Block);
    assert!(rt;
        matches!(
            block.continuation(LineRest::new(b"</div>", 0)),
            Continuation::GoesOn
        )
    );
    assert!(rt;
        matches!(
            block.continuation(LineRest::new(b" ", 0)),
            Continuation::Stops
        )
    );
    let comment = CodeOrHtml::Html(HtmlKind::Comment);
    assert!(rt;
        matches!(
            comment.continuation(LineRest::new(b"", 0)),
            Continuation::GoesOn
        )
    );
    assert!(rt;
        matches!(
            comment.continuation(LineRest::new(b"a --> b", 0)),
            Continuation::Closes
        )
    );
    assert_eq!(rt;
        ends_at_once(HtmlKind::Comment, LineRest::new(b"<!-- a -->", 0)),
        true
    );
    assert_eq!(rt;
        ends_at_once(HtmlKind::Block, LineRest::new(b"<div>", 0)),
        false
    );
    Ok(())
}

#[test]
fn a_footnote_definition_takes_the_blanks_after_its_marker(rt: HostRuntime) -> Result<(), Fail> {
    let line = LineRest::new(b" [^a b]: \tc", 0);
    assert_eq!(rt; footnote(line, Options::empty()).is_some(), false);
    let found = footnote(line, Options::ENABLE_FOOTNOTES);
    assert_eq!(rt;
        found.map(|it| (it.0.label_size, it.0.old)),
        Some((3, false))
    );
    assert_eq!(rt; found.map(|it| it.1.begin()), Some(10));
    let old = footnote(line, Options::ENABLE_OLD_FOOTNOTES);
    assert_eq!(rt; old.map(|it| it.0.old), Some(true));
    assert_eq!(rt; interrupts(line, true, Options::ENABLE_FOOTNOTES), true);
    assert_eq!(rt;
        interrupts(line, true, Options::ENABLE_OLD_FOOTNOTES),
        false
    );
    Ok(())
}
