//! Parsers of the rest of a text. Each row is a text in parts. At the offset of each part but the first, the events and the HTML of the two
//! sides are compared with those of the whole text.

use bitflags::Flags;
use cmark_blocks::{FirstPass, run_first_pass};
use cmark_html::Writer;
use cmark_parser::{Filtering, Parser, parse_rest, to_html, write_rest};
use cmark_text::{BasicEntities, Event, Options};
use cmark_inline::DefaultBrokenLinkCallback;
use cmark_items::Allocations;
use std::alloc::{AllocError, Global};
use std::ops::Range;
use std::process::Abort;
use std::test::Fail;

/// A parser of the text from this offset on, with the definitions and footnotes of the bytes before it.
fn rest_of<'a>(
    alloc: Global,
    text: &'a str,
    from: usize,
    options: Options,
) -> Result<Parser<'a, BasicEntities>, AllocError> {
    let (front, _) = text.split_at(from);
    let FirstPass { tree, allocations } = run_first_pass(alloc, front, options, &BasicEntities)?;
    drop(tree);
    let Allocations { refdefs, footdefs, .. } = allocations;
    let callback: Option<DefaultBrokenLinkCallback> = None;
    parse_rest(
        alloc,
        text,
        from,
        refdefs,
        footdefs,
        options,
        &BasicEntities,
        callback,
        100_000,
    )
}

/// The text of a row, and the offsets at which its parts begin, except the first.
fn joined(alloc: Global, parts: &[&str]) -> Result<(String, Vec<usize>), AllocError> {
    let mut text = String::new(alloc);
    let mut cuts = Vec::new(alloc);
    for part in parts {
        if !text.is_empty() {
            cuts.push(text.len())?;
        }
        text.push_str(part)?;
    }
    Ok((text, cuts))
}

/// The HTML of a text by two parsers, with one writer.
fn in_two(
    alloc: Global,
    text: &str,
    from: usize,
    options: Options,
) -> Result<String, AllocError> {
    let mut html = String::new(alloc);
    let mut writer = Writer::new(alloc);
    let filter = Filtering::AsTheyAre;
    let (front, _) = text.split_at(from);
    let mut first = Parser::new_ext(alloc, front, options, &BasicEntities)?;
    write_rest(&mut html, &mut writer, &mut first, &filter)?;
    let mut rest = rest_of(alloc, text, from, options)?;
    write_rest(&mut html, &mut writer, &mut rest, &filter)?;
    Ok(html)
}

/// The events of a parser with their ranges.
fn events_of<'a>(
    alloc: Global,
    parser: Parser<'a, BasicEntities>,
    into: &mut Vec<(Event<'a>, Range<usize>)>,
) -> Result<(), AllocError> {
    for item in parser.into_offset_iter() {
        into.push(item?)?;
    }
    Ok(())
}

/// Whether the events of both sides of this offset are those of the whole text.
fn has_the_same_events(
    alloc: Global,
    text: &str,
    from: usize,
    options: Options,
) -> Result<bool, AllocError> {
    let mut whole = Vec::new(alloc);
    let parser = Parser::new_ext(alloc, text, options, &BasicEntities)?;
    events_of(alloc, parser, &mut whole)?;
    let mut parts = Vec::new(alloc);
    let (front, _) = text.split_at(from);
    let parser = Parser::new_ext(alloc, front, options, &BasicEntities)?;
    events_of(alloc, parser, &mut parts)?;
    let parser = rest_of(alloc, text, from, options)?;
    events_of(alloc, parser, &mut parts)?;
    Ok(whole.as_slice() == parts.as_slice())
}

fn check(
    rt: &impl Abort,
    alloc: Global,
    options: Options,
    rows: &[&[&str]],
) -> Result<(), Fail> {
    for parts in rows {
        let (text, cuts) = joined(alloc, parts)?;
        let whole = to_html(alloc, text.as_str(), options, &BasicEntities)?;
        for from in cuts.iter() {
            let html = in_two(alloc, text.as_str(), *from, options)?;
            assert_eq!(rt; html.as_str(), whole.as_str(), "at {from} of {text}");
            let same = has_the_same_events(alloc, text.as_str(), *from, options)?;
            assert!(rt; same, "the events at {from} of {text}");
        }
    }
    Ok(())
}

#[test]
fn both_sides_of_a_cut_are_the_text(rt: HostRuntime) -> Result<(), Fail> {
    check(
        &rt,
        rt.alloc(),
        Options::empty(),
        &[
            &["# a\n", "b *c*\n\n", "d\n---\n", "> e\nf\n\n", "g\n"],
            &["- a\n- b\n", "# c\n", "1. d\n", "* e\n\n  f\n", "- g\n"],
            &["[a]: /u\n\n", "[a]\n\n", "[a]: /w\n\n", "[a] *b*\n"],
            &["```\na\n\nb\n```\n", "    c\n\n    d\n\n", "e\n"],
            &["<div>\na\n\n", "b\n\n", "<!-- c -->\n", "d\n"],
            &["\u{e9}\n\n", "- \u{fc}\n\n", "# \u{df}\n"],
            &["a\r\n\r\n", "b\r\n\r\n", "- c\r\n"],
        ],
    )
}

#[test]
fn tables_and_footnotes_continue(rt: HostRuntime) -> Result<(), Fail> {
    check(
        &rt,
        rt.alloc(),
        Options::ENABLE_TABLES.union(Options::ENABLE_FOOTNOTES),
        &[
            &["| a | b |\n|---|---|\n| c |\n\n", "d\n\n", "| e |\n|---|\n"],
            &["[^x]: n\n\n", "[^x] [^x]\n\n", "[^y]: m\n\n", "[^y] [^x]\n"],
        ],
    )
}

/// Each line continues a block of the lines before it, so none of these offsets is a cut.
#[test]
fn the_sides_of_other_offsets_differ(rt: HostRuntime) -> Result<(), Fail> {
    let alloc = rt.alloc();
    for (text, from) in [("- a\n- b\n", 4), ("a\nb\n", 2), ("> a\nb\n", 4)] {
        let same = has_the_same_events(alloc, text, from, Options::empty())?;
        assert!(rt; !same, "at {from} of {text}");
    }
    Ok(())
}
