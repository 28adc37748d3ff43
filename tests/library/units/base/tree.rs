// One test for each call of a tree.

use cmark_tree::{Tree, TreeIndex, TreeSpan};
use std::test::Fail;

// A range whose first byte is not escaped.
#[derive(Clone, Copy)]
struct Span {
    start: usize,
    end: usize,
}

impl TreeSpan for Span {

    ghost spans = { record { start = λ r. r.start; end = λ r. r.end; escaped = λ r. false; ranged = λ r start end. record { start = start; end = end } } };

    fn start(&self) -> usize {
        self.start
    }

    fn end(&self) -> usize {
        self.end
    }

    fn escaped(&self) -> bool {
        false
    }

    fn set_range(&mut self, start: usize, end: usize) {
        self.start = start;
        self.end = end;
    }
}

#[test]
fn numbers_count_from_one(rt: HostRuntime) -> Result<(), Fail> {
    let mut tree = Tree::with_capacity(rt.alloc(), 1)?;
    let first = tree.append(10)?;
    assert_eq!(rt; first.get(), 1);
    assert!(rt; first.checked_sub(1).is_none());
    assert!(rt; first.checked_add(usize::MAX).is_none());
    assert_eq!(rt; first.checked_add(2).map(TreeIndex::get), Some(3));
    Ok(())
}

#[test]
fn append_makes_siblings(rt: HostRuntime) -> Result<(), Fail> {
    let mut tree = Tree::with_capacity(rt.alloc(), 2)?;
    let first = tree.append(10)?;
    let second = tree.append(20)?;
    assert_eq!(rt; *tree.item(second), 20);
    assert_eq!(rt; tree.next(first).map(TreeIndex::get), Some(second.get()));
    assert_eq!(rt; tree.cur().map(TreeIndex::get), Some(second.get()));
    Ok(())
}

#[test]
fn push_goes_down_and_pop_up(rt: HostRuntime) -> Result<(), Fail> {
    let mut tree = Tree::with_capacity(rt.alloc(), 2)?;
    let parent = tree.append(10)?;
    tree.push()?;
    assert!(rt; tree.cur().is_none());
    assert_eq!(rt; tree.peek_up().map(TreeIndex::get), Some(parent.get()));
    assert_eq!(rt; tree.spine_len(), 1);
    assert_eq!(rt; tree.walk_spine().count(), 1);
    assert_eq!(rt; tree.pop().map(TreeIndex::get), Some(parent.get()));
    assert!(rt; tree.pop().is_none());
    Ok(())
}

#[test]
fn next_sibling_and_reset_move_the_focus(rt: HostRuntime) -> Result<(), Fail> {
    let mut tree = Tree::with_capacity(rt.alloc(), 1)?;
    let only = tree.append(10)?;
    assert!(rt; tree.next_sibling(only).is_none());
    tree.reset();
    assert_eq!(rt; tree.cur().map(TreeIndex::get), Some(only.get()));
    Ok(())
}

#[test]
fn open_add_and_close_build(rt: HostRuntime) -> Result<(), Fail> {
    let mut tree = Tree::with_capacity(rt.alloc(), 2)?;
    tree.open(10)?;
    let inner = tree.add(20)?;
    assert_eq!(rt; tree.cur().map(TreeIndex::get), Some(inner.get()));
    tree.close();
    assert_eq!(rt; tree.cur().map(TreeIndex::get), Some(1));
    Ok(())
}

#[test]
fn enclose_and_release_move_the_last_sibling(rt: HostRuntime) -> Result<(), Fail> {
    let mut tree = Tree::with_capacity(rt.alloc(), 3)?;
    tree.add(10)?;
    tree.enclose(20)?;
    assert_eq!(rt; tree.spine_len(), 1);
    tree.add(30)?;
    tree.release();
    assert_eq!(rt; tree.spine_len(), 0);
    assert_eq!(rt; tree.cur().map(TreeIndex::get), Some(3));
    Ok(())
}

#[test]
fn item_mut_writes(rt: HostRuntime) -> Result<(), Fail> {
    let mut tree = Tree::with_capacity(rt.alloc(), 1)?;
    let only = tree.create_node(10)?;
    *tree.item_mut(only) = 20;
    assert_eq!(rt; *tree.item(only), 20);
    Ok(())
}

#[test]
fn set_child_links(rt: HostRuntime) -> Result<(), Fail> {
    let mut tree = Tree::with_capacity(rt.alloc(), 2)?;
    let parent = tree.append(10)?;
    let inner = tree.create_node(20)?;
    tree.set_child(parent, Some(inner));
    assert_eq!(rt; tree.child(parent).map(TreeIndex::get), Some(inner.get()));
    Ok(())
}

#[test]
fn set_next_links(rt: HostRuntime) -> Result<(), Fail> {
    let mut tree = Tree::with_capacity(rt.alloc(), 2)?;
    let first = tree.append(10)?;
    let second = tree.create_node(20)?;
    tree.set_next(first, Some(second));
    assert_eq!(rt; tree.next(first).map(TreeIndex::get), Some(second.get()));
    Ok(())
}

#[test]
fn truncate_siblings_shortens(rt: HostRuntime) -> Result<(), Fail> {
    let mut tree = Tree::with_capacity(rt.alloc(), 2)?;
    tree.open(Span { start: 0, end: 9 })?;
    let inner = tree.add(Span { start: 0, end: 9 })?;
    tree.truncate_siblings(4);
    assert_eq!(rt; tree.cur().map(TreeIndex::get), Some(inner.get()));
    Ok(())
}
