//! Merged texts, for iterators that are not parsers.

use cmark_merge::{TextMergeStream, TextMergeWithOffset};
use cmark_text::{CowStr, Event};
use std::alloc::AllocError;
use std::ops::Range;

/// A borrowed text with a range.
fn text_at(text: &str, range: Range<usize>) -> Result<(Event<'_>, Range<usize>), AllocError> {
    Ok((Event::Text(CowStr::Borrowed(text)), range))
}

/// Whether an event is this text, owned or borrowed.
fn is_text(event: &Event<'_>, text: &str, is_owned: bool) -> bool {
    match event {
        Event::Text(CowStr::Boxed(found)) => is_owned && found.as_str() == text,
        Event::Text(CowStr::Borrowed(found)) => !is_owned && *found == text,
        _ => false,
    }
}

/// Whether an item is the merged item with this index.
fn is_merged(place: usize, item: &Result<(Event<'_>, Range<usize>), AllocError>) -> bool {
    match item {
        Ok((event, range)) if place == 0 => {
            is_text(event, "ab", true) && range.start == 1 && range.end == 5
        }
        Err(_) => place == 1,
        Ok((event, range)) => {
            place == 2 && is_text(event, "c", false) && range.start == 5 && range.end == 6
        }
    }
}

#[test]
fn merges_runs_with_their_ranges(rt: HostRuntime) {
    let items = [
        text_at("a", 1..2),
        text_at("", 3..3),
        text_at("b", 4..5),
        Err(AllocError),
        text_at("c", 5..6),
    ];
    let mut count = 0usize;
    let mut holds = true;
    for item in TextMergeWithOffset::new(rt.alloc(), items.into_iter()) {
        holds = holds && is_merged(count, &item);
        drop(item);
        count = count.saturating_add(1);
    }
    assert!(rt; holds);
    assert_eq!(rt; count, 3);
}

/// Whether an item is the one with this index after the runs of empty texts.
fn is_kept(place: usize, item: &Result<Event<'_>, AllocError>) -> bool {
    match item {
        Ok(Event::Rule) => place < 2,
        Ok(event) => place == 2 && is_text(event, "", false),
        Err(_) => false,
    }
}

#[test]
fn drops_runs_of_empty_texts(rt: HostRuntime) {
    let items = [
        Ok(Event::Rule),
        Ok(Event::Text(CowStr::Borrowed(""))),
        Ok(Event::Text(CowStr::Borrowed(""))),
        Ok(Event::Rule),
        Ok(Event::Text(CowStr::Borrowed(""))),
    ];
    let mut count = 0usize;
    let mut holds = true;
    for item in TextMergeStream::new(rt.alloc(), items.into_iter()) {
        holds = holds && is_kept(count, &item);
        drop(item);
        count = count.saturating_add(1);
    }
    assert!(rt; holds);
    assert_eq!(rt; count, 3);
}
