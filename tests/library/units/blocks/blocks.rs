// The pass over a short text, and the prefixes of a line inside an item of a list in a block quote.

use bitflags::Flags;
use cmark_blocks::{
    FirstPass, LoopInstruction, iterate_special_bytes, run_first_pass, scan_containers,
    skip_container_prefixes, special_bytes,
};
use cmark_builder::Builder;
use cmark_items::{Item, ItemBody, ListFlags};
use cmark_scan::LineStart;
use cmark_text::{BasicEntities, HeadingLevel, Options};
use cmark_tree::Tree;
use std::alloc::{AllocError, Global};
use std::test::Fail;

#[test]
fn a_text_leaves_its_blocks_and_definitions(rt: HostRuntime) -> Result<(), Fail> {
    let text = "[a]: b\n\n# c\n";
    let FirstPass { tree, allocations } = run_first_pass(
        rt.alloc(),
        text,
        Options::empty(),
        &BasicEntities,
    )?;
    assert!(rt; allocations.refdefs.get("A")?.is_some());
    assert!(rt; tree.cur().is_some());
    if let Some(ix) = tree.cur() {
        let heading = *tree.item(ix);
        assert_eq!(rt; (heading.start, heading.end), (8, 12));
        assert!(rt; matches!(heading.body, ItemBody::Heading(HeadingLevel::H1)));
    }
    Ok(())
}

// A tree whose path is a block quote, a list and an item with a prefix of two columns.
fn item_in_a_quote(alloc: Global) -> Result<Tree<Item>, AllocError> {
    let mut builder = Builder::new(alloc, 0)?;
    builder.open(0, ItemBody::BlockQuote(None))?;
    builder.open(2, ItemBody::List(ListFlags::empty(), b'-', 0))?;
    builder.open(2, ItemBody::ListItem(2))?;
    let (tree, _) = builder.finish();
    Ok(tree)
}

#[test]
fn a_line_continues_the_outer_containers(rt: HostRuntime) -> Result<(), Fail> {
    let tree = item_in_a_quote(rt.alloc())?;
    let mut line = LineStart::new(b">   a");
    assert_eq!(rt; scan_containers(&tree, &mut line, Options::empty()), 2);
    assert_eq!(rt; line.remaining_bytes(), b"a".as_slice());
    let mut line = LineStart::new(b">  a");
    assert_eq!(rt; scan_containers(&tree, &mut line, Options::empty()), 1);
    assert_eq!(rt; line.remaining_bytes(), b" a".as_slice());
    Ok(())
}

#[test]
fn prefixes_have_bytes(rt: HostRuntime) -> Result<(), Fail> {
    let tree = item_in_a_quote(rt.alloc())?;
    assert_eq!(rt;
        skip_container_prefixes(&tree, b">   a\n> b", Options::empty()),
        4
    );
    assert_eq!(rt; skip_container_prefixes(&tree, b"> b", Options::empty()), 2);
    assert_eq!(rt; skip_container_prefixes(&tree, b">\n", Options::empty()), 1);
    assert_eq!(rt; skip_container_prefixes(&tree, b"  b", Options::empty()), 0);
    Ok(())
}

// The options of the two tests below.
fn of_six_extensions() -> Options {
    Options::ENABLE_MATH
        .union(Options::ENABLE_TABLES)
        .union(Options::ENABLE_FOOTNOTES)
        .union(Options::ENABLE_STRIKETHROUGH)
        .union(Options::ENABLE_SUPERSCRIPT)
        .union(Options::ENABLE_TASKLISTS)
}

#[test]
fn each_special_byte_is_asked_about_in_turn(rt: HostRuntime) -> Result<(), Fail> {
    let table = special_bytes(of_six_extensions());
    let mut places = Vec::new(rt.alloc());
    let mut is_refused = false;
    let found: (usize, Option<u8>) =
        iterate_special_bytes(&table, b"0123456789abcde~*bcd&f0", 0, |at, _byte| {
            is_refused = is_refused || places.push(at).is_err();
            LoopInstruction::ContinueAndSkip(0)
        });
    assert_eq!(rt; found, (23, None));
    assert!(rt; !is_refused);
    assert_eq!(rt; places.as_slice(), [15, 16, 20].as_slice());
    Ok(())
}

#[test]
fn a_skip_past_the_end_ends_at_the_length(rt: HostRuntime) -> Result<(), Fail> {
    let table = special_bytes(of_six_extensions());
    let mut questions = 0usize;
    let found: (usize, Option<u8>) =
        iterate_special_bytes(&table, b"0123456789abcde~*bcd&f0", 0, |at, _byte| {
            questions = questions.saturating_add(1);
            LoopInstruction::ContinueAndSkip(if at == 15 { 100 } else { 0 })
        });
    assert_eq!(rt; found, (23, None));
    assert_eq!(rt; questions, 1);
    Ok(())
}
