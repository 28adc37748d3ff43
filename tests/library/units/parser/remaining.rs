//! Parsers of a text that grows: of all of it, and of what is not settled.

use bitflags::Flags;
use cmark_inline::DefaultBrokenLinkCallback;
use cmark_parser::Parser;
use cmark_stream::Stream;
use cmark_text::{BasicEntities, Event, Options};
use std::alloc::{AllocError, Global};
use std::ops::Range;
use std::process::Abort;
use std::test::Fail;

const LIMIT: usize = 100_000;

// Pieces of texts that define nothing, and then definitions.
const PIECES: &[&str] = &[
    "a", "b c", "\n", "\n\n", "\n\n", "- ", "1. ", "> ", "# d\n", "```\n", "*", "**", "~~", "<div>\n", "|", "a|b\n-|-\n", "\u{e9}", "[a]",
    "[^x]", "&amp;", "\n\n[a]: /u \"t\"\n\n", "\n\n[B  c]: /v\n\n", "\n\n[^x]: n\n\n",
];
const UNDEFINED: u64 = 20;

fn next(seed: u64) -> u64 {
    seed.wrapping_mul(6364136223846793005).wrapping_add(1442695040888963407)
}

/// The events of a parser with their ranges.
fn events_of<'a>(alloc: Global, parser: Parser<'a, BasicEntities>) -> Result<Vec<(Event<'a>, Range<usize>)>, AllocError> {
    let mut events = Vec::new(alloc);
    for item in parser.into_offset_iter() {
        events.push(item?)?;
    }
    Ok(events)
}

/// The destinations of a parser's definitions, in one text.
fn destinations(alloc: Global, parser: &Parser<'_, BasicEntities>) -> Result<String, AllocError> {
    let mut all = String::new(alloc);
    for (label, definition) in parser.reference_definitions().iter() {
        all.push_str(label)?;
        all.push_str(definition.dest.as_str())?;
    }
    Ok(all)
}

/// Compares the parsers of a stream with that of its text. Returns how many events are before the rest.
fn compare(rt: &impl Abort, alloc: Global, stream: &Stream<'_, BasicEntities>, options: Options) -> Result<usize, Fail> {
    let callback: Option<DefaultBrokenLinkCallback> = None;
    let parser = Parser::new_with_expansion_limit(alloc, stream.text(), options, &BasicEntities, callback, LIMIT)?;
    let wanted = destinations(alloc, &parser)?;
    let wanted_events = events_of(alloc, parser)?;
    let whole = stream.parser()?;
    let rest = stream.rest()?;
    for found in [destinations(alloc, &whole)?, destinations(alloc, &rest)?] {
        assert_eq!(rt; found.as_str(), wanted.as_str());
    }
    let whole = events_of(alloc, whole)?;
    assert!(rt; whole.as_slice() == wanted_events.as_slice(), "the events of {}", stream.text());
    let rest = events_of(alloc, rest)?;
    assert!(rt; rest.len() <= whole.len());
    let settled = whole.len() - rest.len();
    assert!(rt; rest.as_slice() == &whole.as_slice()[settled..], "the events from {} on of {}", stream.cut(), stream.text());
    for (_, range) in rest.as_slice() {
        assert!(rt; stream.cut() <= range.start);
    }
    Ok(settled)
}

/// Compares the parsers after each chunk of random texts. Returns how many settled events there were.
fn compare_all(rt: &impl Abort, alloc: Global, options: Options, choice: u64) -> Result<usize, Fail> {
    let mut settled = 0;
    let mut seed = 3;
    for _ in 0..200 {
        let mut stream = Stream::new(alloc, options, &BasicEntities, LIMIT);
        for _ in 0..20 {
            seed = next(seed);
            stream.push(PIECES[((seed >> 33) % choice) as usize])?;
            if (seed >> 20) % 3 != 0 {
                stream.refresh()?;
            }
            settled += compare(rt, alloc, &stream, options)?;
        }
    }
    Ok(settled)
}

#[test]
fn the_rest_ends_the_events_of_the_text(rt: HostRuntime) -> Result<(), Fail> {
    for options in [Options::empty(), Options::GITHUB] {
        let settled = compare_all(&rt, rt.alloc(), options, UNDEFINED)?;
        println!(rt; "{settled} settled events")?;
        assert!(rt; settled > 1000);
    }
    Ok(())
}

#[test]
fn definitions_are_those_of_the_text(rt: HostRuntime) -> Result<(), Fail> {
    for options in [Options::empty(), Options::GITHUB, Options::all()] {
        compare_all(&rt, rt.alloc(), options, PIECES.len() as u64)?;
    }
    Ok(())
}

#[test]
fn the_rest_begins_at_the_cut(rt: HostRuntime) -> Result<(), Fail> {
    let mut stream = Stream::new(rt.alloc(), Options::empty(), &BasicEntities, LIMIT);
    stream.push("# Bread\n\nFlour and *water*\n\nSalt")?;
    assert_eq!(rt; stream.cut(), 0);
    stream.refresh()?;
    assert_eq!(rt; stream.settled(), "<h1>Bread</h1>\n");
    assert_eq!(rt; stream.cut(), 9);
    let mut texts = String::new(rt.alloc());
    for item in stream.rest()? {
        if let Event::Text(text) = item? {
            texts.push_str(text.as_str())?;
        }
    }
    assert_eq!(rt; texts.as_str(), "Flour and waterSalt");
    stream.push("\n\n[a]: /u\n")?;
    let parser = stream.parser()?;
    assert!(rt; parser.reference_definitions().get("A")?.is_some());
    Ok(())
}
