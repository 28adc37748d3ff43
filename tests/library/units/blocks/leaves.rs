// Lines of leaves at the beginning of a document, and the last node after them. The texts are from CommonMark 2.2, 2.5, 4.2, 4.6 and 4.8.

use cmark_builder::Builder;
use cmark_items::{Item, ItemBody};
use cmark_leaf_nodes::{
    Stretch, draw_code_line, draw_heading, draw_html_line, draw_last_lines, draw_lines,
    draw_stretch,
};
use cmark_line_rules::LineRest;
use std::test::Fail;

/// The first line of a text.
fn first_line(text: &str) -> LineRest<'_> {
    LineRest::new(text.as_bytes(), 0)
}

/// The node that was appended last.
fn last_item(builder: Builder<'_>) -> Option<Item> {
    let (tree, _) = builder.finish();
    let ix = tree.cur()?;
    Some(*tree.item(ix))
}

/// Whether there is a node, and it is a text with these bytes whose first byte is not escaped.
fn is_text(found: Option<Item>, start: usize, end: usize) -> bool {
    match found {
        Some(item) => {
            let is_plain = matches!(
                item.body,
                ItemBody::Text {
                    backslash_escaped: false
                }
            );
            is_plain && item.start == start && item.end == end
        }
        None => false,
    }
}

#[test]
fn the_last_line_stands_as_it_is_without_the_blanks_after_it(rt: HostRuntime) -> Result<(), Fail> {
    let mut builder = Builder::new(rt.alloc(), 0)?;
    draw_last_lines(&mut builder, 1, first_line(" a\\* &amp; b \n"))?;
    assert!(rt; is_text(last_item(builder), 1, 12));
    Ok(())
}

#[test]
fn a_line_stands_as_it_is_with_its_line_ending(rt: HostRuntime) -> Result<(), Fail> {
    let mut builder = Builder::new(rt.alloc(), 0)?;
    draw_lines(&mut builder, 0, first_line("foo  \nbaz"))?;
    assert!(rt; is_text(last_item(builder), 0, 6));
    Ok(())
}

#[test]
fn a_closing_sequence_is_no_text(rt: HostRuntime) -> Result<(), Fail> {
    let mut builder = Builder::new(rt.alloc(), 0)?;
    draw_heading(&mut builder, first_line("## foo \\# ##  \n"), false)?;
    assert!(rt; is_text(last_item(builder), 3, 9));
    Ok(())
}

#[test]
fn a_line_of_code_waits(rt: HostRuntime) -> Result<(), Fail> {
    let mut builder = Builder::new(rt.alloc(), 0)?;
    let waits = draw_code_line(&mut builder, first_line("\tfoo\r\n"), 2, None)?;
    assert!(rt; matches!(waits, Some(Stretch { start: 5, end: 6 })));
    draw_stretch(&mut builder, waits)?;
    assert!(rt; is_text(last_item(builder), 5, 6));
    Ok(())
}

#[test]
fn a_line_of_html_is_a_node(rt: HostRuntime) -> Result<(), Fail> {
    let mut builder = Builder::new(rt.alloc(), 0)?;
    draw_html_line(&mut builder, first_line("<table>\n"))?;
    assert!(rt;
        matches!(
            last_item(builder),
            Some(Item {
                start: 0,
                end: 8,
                body: ItemBody::Html,
            })
        )
    );
    Ok(())
}
