// A walk over a tree that is built by hand.

use cmark_items::{Allocations, Item, ItemBody, ListFlags};
use cmark_leaf_text::LeafLine;
use cmark_text::{PlainTag, Short, TagEnd};
use cmark_tree::Tree;
use cmark_block_walk::{BlockStep, Walk};
use std::alloc::{AllocError, Global};
use std::test::Fail;

// A list of one item of one paragraph of the text `a`.
fn list(alloc: Global) -> Result<Walk<'static>, AllocError> {
    let mut tree: Tree<Item> = Tree::with_capacity(alloc, 4)?;
    tree.open(Item {
        start: 0,
        end: 1,
        body: ItemBody::List(ListFlags::IS_TIGHT, b'-', 0),
    })?;
    tree.open(Item {
        start: 0,
        end: 1,
        body: ItemBody::ListItem(2),
    })?;
    tree.open(Item {
        start: 0,
        end: 1,
        body: ItemBody::Paragraph,
    })?;
    tree.add(Item {
        start: 0,
        end: 1,
        body: ItemBody::Text {
            backslash_escaped: false,
        },
    })?;
    tree.close();
    tree.close();
    tree.close();
    Ok(Walk::new(alloc, "a", tree, Allocations::new(alloc)))
}

// The next event of the walk, if it owns nothing and is over the whole text.
fn next_over_all(
    walk: &mut Walk<'static>,
    lines: &mut Vec<LeafLine>,
) -> Result<Option<Short<'static>>, AllocError> {
    match walk.step(lines)? {
        BlockStep::Short(short, 0, 1) => Ok(Some(short)),
        _ => Ok(None),
    }
}

#[test]
fn a_tight_paragraph_is_met_as_its_lines(rt: HostRuntime) -> Result<(), Fail> {
    let mut walk = list(rt.alloc())?;
    let mut lines = Vec::new(rt.alloc());
    let list = next_over_all(&mut walk, &mut lines)?;
    assert!(rt; matches!(list, Some(Short::Start(PlainTag::List(None)))));
    let item = next_over_all(&mut walk, &mut lines)?;
    assert!(rt; matches!(item, Some(Short::Start(PlainTag::Item))));
    assert!(rt; matches!(walk.step(&mut lines)?, BlockStep::Leaf { is_cell: false }));
    assert_eq!(rt; lines.len(), 1);
    let line = lines[0];
    assert_eq!(rt; (line.start, line.content_end, line.line_end), (0, 1, 1));
    let item = next_over_all(&mut walk, &mut lines)?;
    assert!(rt; matches!(item, Some(Short::End(TagEnd::Item))));
    let list = next_over_all(&mut walk, &mut lines)?;
    assert!(rt; matches!(list, Some(Short::End(TagEnd::List(false)))));
    assert!(rt; matches!(walk.step(&mut lines)?, BlockStep::Over));
    assert!(rt; walk.definitions().get("a")?.is_none());
    Ok(())
}
