//! The front of a line and the leaf scanners, each on its happy path.

use cmark_scan::{
    CodeFence, HtmlKind, LineStart, holds_end, html_kind, scan_atx_heading,
    scan_closing_code_fence, scan_closing_metadata_fence, scan_code_fence, scan_hrule,
    scan_metadata_fence, scan_setext_heading, scan_table_head,
};
use cmark_text::{Alignment, BlockQuoteKind, HeadingLevel, MetadataBlockKind};
use std::test::Fail;

#[test]
fn a_line_ends_before_its_ending(rt: HostRuntime) -> Result<(), Fail> {
    let mut line = LineStart::new(b"  \r\nnext");
    line.scan_all_space();
    assert_eq!(rt; line.is_at_eol(), true);
    assert_eq!(rt; line.bytes_scanned(), 2);
    Ok(())
}

#[test]
fn a_part_of_a_tab_is_taken(rt: HostRuntime) -> Result<(), Fail> {
    let mut line = LineStart::new(b"\ta");
    assert_eq!(rt; line.scan_space(1), true);
    assert_eq!(rt; line.remaining_space(), 3);
    assert_eq!(rt; line.is_at_eol(), false);
    assert_eq!(rt; line.bytes_scanned(), 1);
    Ok(())
}

#[test]
fn fewer_columns_are_taken_all_the_same(rt: HostRuntime) -> Result<(), Fail> {
    let mut line = LineStart::new(b"  a");
    assert_eq!(rt; line.scan_space(3), false);
    assert_eq!(rt; line.bytes_scanned(), 2);
    Ok(())
}

#[test]
fn a_tab_reaches_the_next_stop(rt: HostRuntime) -> Result<(), Fail> {
    let mut line = LineStart::new(b" \t a");
    assert_eq!(rt; line.scan_space_upto(9), 5);
    assert_eq!(rt; line.bytes_scanned(), 3);
    Ok(())
}

#[test]
fn a_quote_marker_takes_one_column(rt: HostRuntime) -> Result<(), Fail> {
    let mut line = LineStart::new(b">\ta");
    assert_eq!(rt; line.scan_blockquote_marker(), true);
    assert_eq!(rt; line.remaining_space(), 2);
    assert_eq!(rt; line.scan_blockquote_marker(), false);
    Ok(())
}

#[test]
fn a_tag_of_an_alert(rt: HostRuntime) -> Result<(), Fail> {
    let mut line = LineStart::new(b"[!note] \n");
    assert_eq!(rt; line.scan_blockquote_tag(), Some(BlockQuoteKind::Note));
    assert_eq!(rt; line.is_at_eol(), true);
    Ok(())
}

#[test]
fn bullets(rt: HostRuntime) -> Result<(), Fail> {
    let mut line = LineStart::new(b"- a");
    assert_eq!(rt; line.scan_list_marker_with_indent(0), Some((b'-', 0, 2)));
    let mut tabbed = LineStart::new(b"-\ta");
    assert_eq!(rt;
        tabbed.scan_list_marker_with_indent(0),
        Some((b'-', 0, 4))
    );
    Ok(())
}

#[test]
fn a_thematic_break_after_bullets(rt: HostRuntime) -> Result<(), Fail> {
    let mut line = LineStart::new(b"- - * * *");
    assert_eq!(rt; line.scan_list_marker_with_indent(0), Some((b'-', 0, 2)));
    assert_eq!(rt; line.scan_list_marker_with_indent(0), Some((b'-', 0, 2)));
    assert_eq!(rt; line.scan_list_marker_with_indent(0), None);
    assert_eq!(rt; line.bytes_scanned(), 4);
    Ok(())
}

#[test]
fn a_numbered_item(rt: HostRuntime) -> Result<(), Fail> {
    let mut line = LineStart::new(b"10) x");
    assert_eq!(rt;
        line.scan_list_marker_with_indent(0),
        Some((b')', 10, 4))
    );
    Ok(())
}

#[test]
fn an_item_with_a_blank_rest(rt: HostRuntime) -> Result<(), Fail> {
    let mut line = LineStart::new(b"-");
    assert_eq!(rt; line.scan_list_marker_with_indent(0), Some((b'-', 0, 2)));
    Ok(())
}

#[test]
fn of_six_blanks_one_counts(rt: HostRuntime) -> Result<(), Fail> {
    let mut line = LineStart::new(b"-      a");
    assert_eq!(rt; line.scan_list_marker_with_indent(0), Some((b'-', 0, 2)));
    assert_eq!(rt; line.bytes_scanned(), 2);
    Ok(())
}

#[test]
fn ten_digits_are_no_marker(rt: HostRuntime) -> Result<(), Fail> {
    let mut line = LineStart::new(b"1234567890. a");
    assert_eq!(rt; line.scan_list_marker_with_indent(0), None);
    assert_eq!(rt; line.bytes_scanned(), 0);
    Ok(())
}

#[test]
fn a_definition_with_no_blank(rt: HostRuntime) -> Result<(), Fail> {
    let mut line = LineStart::new(b":a");
    assert_eq!(rt;
        line.scan_definition_list_definition_marker_with_indent(2),
        Some(3)
    );
    assert_eq!(rt; line.bytes_scanned(), 1);
    Ok(())
}

#[test]
fn task_markers(rt: HostRuntime) -> Result<(), Fail> {
    let mut line = LineStart::new(b"[x] a");
    assert_eq!(rt; line.scan_task_list_marker(), Some(true));
    assert_eq!(rt; line.bytes_scanned(), 3);
    let mut bare = LineStart::new(b"[x]");
    assert_eq!(rt; bare.scan_task_list_marker(), None);
    Ok(())
}

#[test]
fn markers_of_footnote_definitions(rt: HostRuntime) -> Result<(), Fail> {
    let mut line = LineStart::new(b"[^a\tb]:\t c");
    assert_eq!(rt; line.scan_footnote_marker(), Some(3));
    assert_eq!(rt; line.bytes_scanned(), 9);
    let mut none = LineStart::new(b"[a]: b");
    assert_eq!(rt; none.scan_footnote_marker(), None);
    assert_eq!(rt; none.bytes_scanned(), 0);
    Ok(())
}

#[test]
fn thematic_breaks(rt: HostRuntime) -> Result<(), Fail> {
    assert_eq!(rt; scan_hrule(b"- - -"), true);
    assert_eq!(rt; scan_hrule(b"--a"), false);
    Ok(())
}

#[test]
fn headings(rt: HostRuntime) -> Result<(), Fail> {
    assert_eq!(rt; scan_atx_heading(b"## a"), Some(HeadingLevel::H2));
    assert_eq!(rt; scan_setext_heading(b"== "), Some(HeadingLevel::H1));
    Ok(())
}

#[test]
fn a_fence_and_its_end(rt: HostRuntime) -> Result<(), Fail> {
    assert!(rt;
        matches!(
            scan_code_fence(b"~~~~ rs "),
            Some(CodeFence {
                delimiter: b'~',
                run_length: 4,
                info_start: 5,
                info_end: 7,
            })
        )
    );
    assert_eq!(rt; scan_closing_code_fence(b"~~~~~ ", b'~', 4), true);
    Ok(())
}

#[test]
fn html_blocks(rt: HostRuntime) -> Result<(), Fail> {
    assert!(rt; matches!(html_kind(b"<Table>"), Some(HtmlKind::Block)));
    assert!(rt; matches!(html_kind(b"<a b='c'>  "), Some(HtmlKind::Tag)));
    assert_eq!(rt; holds_end(b"a</Script>", HtmlKind::Raw), true);
    Ok(())
}

#[test]
fn metadata(rt: HostRuntime) -> Result<(), Fail> {
    assert_eq!(rt;
        scan_metadata_fence(b"+++ "),
        Some(MetadataBlockKind::PlusesStyle)
    );
    assert_eq!(rt;
        scan_closing_metadata_fence(b"...", MetadataBlockKind::YamlStyle),
        true
    );
    Ok(())
}

#[test]
fn a_delimiter_row(rt: HostRuntime) -> Result<(), Fail> {
    let row = scan_table_head(rt.alloc(), b"|:-|--:|")?;
    let Some(columns) = row else {
        assert_eq!(rt; true, false);
        return Ok(());
    };
    assert_eq!(rt; columns.len(), 2);
    assert_eq!(rt; columns.first().copied(), Some(Alignment::Left));
    assert_eq!(rt; columns.last().copied(), Some(Alignment::Right));
    Ok(())
}
