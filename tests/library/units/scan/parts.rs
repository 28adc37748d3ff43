use cmark_scan::{HtmlTag, scan_html_block_inner, scan_link_label_rest};
use cmark_scan_bytes::{
    HtmlScanGuard, scan_autolink, scan_entity, scan_footnote_marker, scan_inline_html_comment,
    scan_inline_html_processing, scan_link_dest, scan_rev_while, scan_tag, scan_while,
    scan_wikilink_pipe, unescape,
};
use cmark_text::{BasicEntities, CowStr};
use std::alloc::{AllocError, Global};
use std::test::Fail;

/// The tag at the start, if each later line has a prefix of `width` bytes.
fn scan_within(alloc: Global, width: usize, bytes: &[u8]) -> Result<Option<HtmlTag>, AllocError> {
    scan_html_block_inner(alloc, bytes, &|rest: &[u8]| width.min(rest.len()))
}

#[test]
fn scans_tag_behind(rt: HostRuntime) -> Result<(), Fail> {
    assert_eq!(rt; scan_tag(b"<a b='c' d=e/ f />g"), Some(b"g".as_slice()));
    Ok(())
}

#[test]
fn scans_tag_on_one_line(rt: HostRuntime) -> Result<(), Fail> {
    let found = scan_within(rt.alloc(), 0, b"<a href=\"x\">y")?;
    let tag = found.ok_or("no tag")?;
    assert_eq!(rt; tag.end, 12);
    assert!(rt; tag.buffer.is_empty());
    Ok(())
}

#[test]
fn scans_tag_over_lines(rt: HostRuntime) -> Result<(), Fail> {
    let found = scan_within(rt.alloc(), 2, b"<foo\n> bar>")?;
    let tag = found.ok_or("no tag")?;
    assert_eq!(rt; tag.end, 11);
    assert_eq!(rt; tag.buffer.as_slice(), b"<foo\nbar>".as_slice());
    Ok(())
}

#[test]
fn finds_comment(rt: HostRuntime) -> Result<(), Fail> {
    let find = scan_inline_html_comment(b"<!-- a -->b", 2, &mut HtmlScanGuard::default());
    assert_eq!(rt; (find.end, find.passed), (Some(10), 8));
    Ok(())
}

#[test]
fn finds_comment_closed_at_once(rt: HostRuntime) -> Result<(), Fail> {
    let find = scan_inline_html_comment(b"<!-->", 2, &mut HtmlScanGuard::default());
    assert_eq!(rt; (find.end, find.passed), (Some(5), 3));
    Ok(())
}

#[test]
fn finds_no_end_of_comment(rt: HostRuntime) -> Result<(), Fail> {
    let find = scan_inline_html_comment(b"<!-- a", 2, &mut HtmlScanGuard::default());
    assert_eq!(rt; (find.end, find.passed), (None, 4));
    Ok(())
}

#[test]
fn finds_first_end_of_cdata(rt: HostRuntime) -> Result<(), Fail> {
    let find = scan_inline_html_comment(b"<![CDATA[a]]>b]]>", 2, &mut HtmlScanGuard::default());
    assert_eq!(rt; (find.end, find.passed), (Some(13), 11));
    Ok(())
}

#[test]
fn finds_processing_instruction(rt: HostRuntime) -> Result<(), Fail> {
    let find = scan_inline_html_processing(b"<?a>?>b", 2, &mut HtmlScanGuard::default());
    assert_eq!(rt; (find.end, find.passed), (Some(6), 4));
    Ok(())
}

#[test]
fn finds_in_vain_once(rt: HostRuntime) -> Result<(), Fail> {
    let bytes = b"<!-- a <!-- b <?c> d <!E";
    let mut guard = HtmlScanGuard::default();
    let find = scan_inline_html_comment(bytes, 2, &mut guard);
    assert_eq!(rt; (find.end, find.passed), (None, 22));
    assert_eq!(rt; guard.comment, 24);
    let find = scan_inline_html_comment(bytes, 9, &mut guard);
    assert_eq!(rt; (find.end, find.passed), (None, 7));
    let find = scan_inline_html_processing(bytes, 16, &mut guard);
    assert_eq!(rt; (find.end, find.passed), (None, 8));
    let find = scan_inline_html_comment(bytes, 23, &mut guard);
    assert_eq!(rt; (find.end, find.passed), (None, 1));
    assert_eq!(rt; (guard.cdata, guard.processing, guard.declaration), (0, 24, 24));
    Ok(())
}

#[test]
fn finds_with_another_mark(rt: HostRuntime) -> Result<(), Fail> {
    let bytes = b"<!-- a <!B>";
    let mut guard = HtmlScanGuard::default();
    let find = scan_inline_html_comment(bytes, 2, &mut guard);
    assert_eq!(rt; (find.end, guard.comment), (None, 11));
    let find = scan_inline_html_comment(bytes, 9, &mut guard);
    assert_eq!(rt; (find.end, find.passed), (Some(11), 2));
    Ok(())
}

#[test]
fn scans_an_autolink(rt: HostRuntime) -> Result<(), Fail> {
    let link = scan_autolink(true, "<made-up:x y>", 1);
    assert!(rt; link.is_none());
    let link = scan_autolink(false, "a <http://b.c>d", 3).ok_or("no link")?;
    assert_eq!(rt; link.end, 14);
    assert_eq!(rt; link.part, "http://b.c");
    let link = scan_autolink(false, "<a@b.c>", 1);
    assert!(rt; link.is_none());
    let link = scan_autolink(true, "<a@b.c>", 1).ok_or("no address")?;
    assert_eq!(rt; link.end, 7);
    assert_eq!(rt; link.part, "a@b.c");
    Ok(())
}

#[test]
fn scans_a_wikilink_pipe(rt: HostRuntime) -> Result<(), Fail> {
    let name = scan_wikilink_pipe("[[a|b|c]]|", 2, 5).ok_or("no pipe")?;
    assert_eq!(rt; name.end, 4);
    assert_eq!(rt; name.part, "a");
    Ok(())
}

#[test]
fn scans_a_numeric_reference(rt: HostRuntime) -> Result<(), Fail> {
    let entity = scan_entity(b"&#x41;", &BasicEntities).ok_or("none")?;
    assert_eq!(rt; entity.len, 6);
    assert_eq!(rt; entity.text.as_str(), "A");
    Ok(())
}

#[test]
fn scans_no_reference_of_eight_digits(rt: HostRuntime) -> Result<(), Fail> {
    assert!(rt; scan_entity(b"&#12345678;", &BasicEntities).is_none());
    Ok(())
}

#[test]
fn scans_an_entity(rt: HostRuntime) -> Result<(), Fail> {
    let entity = scan_entity(b"&copy;x", &BasicEntities).ok_or("none")?;
    assert_eq!(rt; entity.len, 6);
    assert_eq!(rt; entity.text.as_str(), "\u{a9}");
    Ok(())
}

#[test]
fn scans_a_bare_destination(rt: HostRuntime) -> Result<(), Fail> {
    let dest = scan_link_dest("(a(b\\)c)d)", 1).ok_or("none")?;
    assert_eq!(rt; dest.end, 9);
    assert_eq!(rt; dest.part, "a(b\\)c)d");
    Ok(())
}

#[test]
fn scans_a_pointed_destination(rt: HostRuntime) -> Result<(), Fail> {
    let dest = scan_link_dest("(<a b>)", 1).ok_or("none")?;
    assert_eq!(rt; dest.end, 6);
    assert_eq!(rt; dest.part, "a b");
    Ok(())
}

#[test]
fn counts_bytes_that_pass(rt: HostRuntime) -> Result<(), Fail> {
    assert_eq!(rt; scan_while(b"aab a", |byte| byte < b'b'), 2);
    assert_eq!(rt; scan_rev_while(b"aab a", |byte| byte != b' '), 1);
    Ok(())
}

#[test]
fn unescapes_a_text(rt: HostRuntime) -> Result<(), Fail> {
    let input = CowStr::from("a\\*b&copy;&x\\y");
    let text = unescape(rt.alloc(), input, false, &BasicEntities)?;
    assert_eq!(rt; text.as_str(), "a*b\u{a9}&x\\y");
    Ok(())
}

#[test]
fn unescapes_pipes_in_a_table(rt: HostRuntime) -> Result<(), Fail> {
    let input = CowStr::from("a\\|b\\\\|c\\\\\\|d");
    let text = unescape(rt.alloc(), input, true, &BasicEntities)?;
    assert_eq!(rt; text.as_str(), "a|b|c\\|d");
    Ok(())
}

/// The size of the block quote's prefix at the start, if there is one.
fn quote_prefix(rest: &[u8]) -> Option<usize> {
    match rest {
        [b'>', blank, ..] if *blank == b' ' => Some(2),
        _ => None,
    }
}

#[test]
fn scans_a_label_over_lines(rt: HostRuntime) -> Result<(), Fail> {
    let found = scan_link_label_rest(
        rt.alloc(),
        "a\\]\n> b]c",
        &|rest: &[u8]| quote_prefix(rest),
        false,
    )?;
    let label = found.ok_or("no label")?;
    assert_eq!(rt; label.end, 8);
    assert_eq!(rt; label.text.as_str(), "a\\]\nb");
    Ok(())
}

#[test]
fn labels_of_footnote_definitions(rt: HostRuntime) -> Result<(), Fail> {
    assert_eq!(rt; scan_footnote_marker(b"[^a b]: c"), Some(3));
    assert_eq!(rt; scan_footnote_marker(b"[^\\]]:"), Some(2));
    assert_eq!(rt; scan_footnote_marker(b"[^a] :"), None);
    assert_eq!(rt; scan_footnote_marker(b"[^ ]: c"), None);
    Ok(())
}

#[test]
fn a_label_on_one_line_is_borrowed(rt: HostRuntime) -> Result<(), Fail> {
    let found = scan_link_label_rest(rt.alloc(), "\u{e9}\\|b]", &|_: &[u8]| None, false)?;
    let label = found.ok_or("no label")?;
    assert_eq!(rt; label.end, 6);
    assert!(rt; matches!(label.text, CowStr::Borrowed("\u{e9}\\|b")));
    Ok(())
}

#[test]
fn pipes_in_a_label_in_a_table(rt: HostRuntime) -> Result<(), Fail> {
    let found = scan_link_label_rest(rt.alloc(), "p\\|q\\\\|r\\\\\\|]", &|_: &[u8]| None, true)?;
    let label = found.ok_or("no label")?;
    assert_eq!(rt; label.end, 13);
    assert_eq!(rt; label.text.as_str(), "p|q|r\\\\|");
    Ok(())
}
