//! Tests of the items' tables, with ample memory.

use bitflags::Flags;
use cmark_items::{
    Allocations, FootnoteDef, FootnoteDefs, Item, ItemBody, LinkDef, ListFlags, RefDefs,
};
use cmark_text::{Alignment, CowStr, FootnoteLabel, LinkLabel, LinkType};
use cmark_tree::TreeSpan;
use std::alloc::{AllocError, Global};
use std::test::Fail;

fn keeps_texts(tables: &mut Allocations<'static>) -> Result<bool, AllocError> {
    let one = tables.allocate_cow(CowStr::Borrowed("one"))?;
    let two = tables.allocate_cow(CowStr::Borrowed("two"))?;
    let are_kept = tables[one].as_str() == "one" && tables[two].as_str() == "two";
    let is_taken = tables.take_cow(one).as_str() == "one";
    Ok(are_kept && is_taken && tables[one].as_str() == "" && tables[two].as_str() == "two")
}

#[test]
fn texts_are_kept_and_taken(rt: HostRuntime) -> Result<(), Fail> {
    let mut tables = Allocations::new(rt.alloc());
    let holds = keeps_texts(&mut tables);
    drop(tables);
    assert!(rt; holds?);
    Ok(())
}

fn keeps_links(tables: &mut Allocations<'static>) -> Result<bool, AllocError> {
    let index = tables.allocate_link(
        LinkType::Inline,
        CowStr::Borrowed("/u"),
        CowStr::Borrowed("t"),
        CowStr::Borrowed(""),
    )?;
    let is_kept = tables[index].dest_url.as_str() == "/u";
    let is_taken = tables.take_link(index).title.as_str() == "t";
    let is_none = tables[index].link_type == LinkType::ShortcutUnknown;
    Ok(is_kept && is_taken && is_none && tables[index].dest_url.as_str() == "")
}

#[test]
fn links_are_kept_and_taken(rt: HostRuntime) -> Result<(), Fail> {
    let mut tables = Allocations::new(rt.alloc());
    let holds = keeps_links(&mut tables);
    drop(tables);
    assert!(rt; holds?);
    Ok(())
}

fn keeps_alignments(alloc: Global, tables: &mut Allocations<'static>) -> Result<bool, AllocError> {
    let row = Vec::from_slice(alloc, &[Alignment::Left, Alignment::None])?;
    let index = tables.allocate_alignment(row)?;
    let is_kept = tables[index].len() == 2;
    let is_taken = tables.take_alignment(index).len() == 2;
    Ok(is_kept && is_taken && tables[index].is_empty())
}

#[test]
fn alignments_are_kept_and_taken(rt: HostRuntime) -> Result<(), Fail> {
    let mut tables = Allocations::new(rt.alloc());
    let holds = keeps_alignments(rt.alloc(), &mut tables);
    drop(tables);
    assert!(rt; holds?);
    Ok(())
}

fn definition(dest: &str) -> LinkDef<'_> {
    LinkDef {
        dest: CowStr::Borrowed(dest),
        title: None,
        span: 0..1,
    }
}

fn two_definitions(alloc: Global) -> Result<RefDefs<'static>, AllocError> {
    let mut defs = RefDefs::new(alloc);
    defs.insert(LinkLabel::new(alloc, "A  b")?, definition("/1"))?;
    defs.insert(LinkLabel::new(alloc, "a B")?, definition("/2"))?;
    Ok(defs)
}

#[test]
fn the_first_definition_of_a_label_stays(rt: HostRuntime) -> Result<(), Fail> {
    let defs = two_definitions(rt.alloc())?;
    assert_eq!(rt; defs.get("a b")?.map(|def| def.dest.as_str()), Some("/1"));
    assert_eq!(rt; defs.get("c")?.is_none(), true);
    Ok(())
}

#[test]
fn each_label_comes_once(rt: HostRuntime) -> Result<(), Fail> {
    let defs = two_definitions(rt.alloc())?;
    let mut iter = defs.iter();
    assert_eq!(rt; iter.next().map(|(label, _)| label), Some("A b"));
    assert_eq!(rt; iter.next().is_none(), true);
    Ok(())
}

#[test]
fn copies_of_a_definition_are_equal(rt: HostRuntime) -> Result<(), Fail> {
    let copy = definition("/1").clone(rt.alloc())?;
    assert_eq!(rt; copy.into_static(rt.alloc())?.dest.as_str(), "/1");
    Ok(())
}

fn keeps_the_first_footnote(alloc: Global, defs: &mut FootnoteDefs) -> Result<bool, AllocError> {
    defs.insert(
        FootnoteLabel::new(alloc, "A  b")?,
        FootnoteDef { use_count: 4 },
    )?;
    defs.insert(
        FootnoteLabel::new(alloc, "a B")?,
        FootnoteDef { use_count: 0 },
    )?;
    let is_counted = defs.count_use("a b")? && !defs.count_use("c")?;
    let is_there = !defs.contains("c")? && defs.contains(" A b")?;
    let uses = defs.get_mut("a b")?.map(|def| def.use_count);
    Ok(is_counted && is_there && uses == Some(5))
}

#[test]
fn the_first_footnote_of_a_label_stays(rt: HostRuntime) -> Result<(), Fail> {
    let mut defs = FootnoteDefs::new(rt.alloc());
    let holds = keeps_the_first_footnote(rt.alloc(), &mut defs);
    drop(defs);
    assert!(rt; holds?);
    Ok(())
}

#[test]
fn flags_of_a_list_are_joined(rt: HostRuntime) -> Result<(), Fail> {
    let both = ListFlags::IS_TIGHT.union(ListFlags::LAST_LINE_EMPTY);
    assert_eq!(rt; both.bits(), 3);
    assert_eq!(rt; both.contains(ListFlags::IS_TIGHT), true);
    assert!(rt; ItemBody::default() == ItemBody::Root);
    Ok(())
}

#[test]
fn an_item_has_a_range(rt: HostRuntime) -> Result<(), Fail> {
    let mut item = Item {
        start: 3,
        end: 5,
        body: ItemBody::Text {
            backslash_escaped: true,
        },
    };
    item.set_range(4, 6);
    assert_eq!(rt; (item.start(), item.end()), (4, 6));
    assert_eq!(rt; item.escaped(), true);
    Ok(())
}
