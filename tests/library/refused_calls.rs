//! One call of the library on one text. The program writes what the call returned, one line each.
//!
//! Standard input has a byte that names the call, a byte `c` for a callback, the bits of the options in four bytes, and the text.
//! `tests/library/refused_calls` refuses this program its allocations in turn. The program allocates nothing of its own.
#![tactic(auto)]

use bitflags::Flags;
use cmark_inline::{InlineState, Reader, special_bytes};
use cmark_leaf_text::{LeafLine, LeafText};
use cmark_references::{FootnoteDef, FootnoteDefs, RefDefs};
use cmark_text::FootnoteLabel;
use program_io::Watched;
use mdhtml_run::run;
use program_settings::read_entities;
use pulldown_cmark::html::push_html;
use pulldown_cmark::{
    BasicEntities, BrokenLink, BrokenLinkCallback, CowStr, EntityLookup, Options, Parser, Stream,
    TextMergeStream, TextMergeWithOffset,
};
use std::alloc::{AllocError, Global};
use std::fmt::Debug;
use std::io::{self, Read};
use std::process::ExitCode;

/// A text, and how it is read.
#[derive(Clone, Copy)]
struct Row<'a> {
    text: &'a str,
    options: Options,
    /// Whether a callback answers for references without a definition.
    has_callback: bool,
}

/// Answers each question alike.
#[derive(Drop)]
struct Website;

impl<'input> BrokenLinkCallback<'input> for Website {
    ghost answers = { λ before link answer after. after ≡ before };

    fn handle_broken_link(
        &mut self,
        _link: BrokenLink<'input>,
    ) -> Option<(CowStr<'input>, CowStr<'input>)> {
        Some((
            CowStr::Borrowed("http://example.com"),
            CowStr::Borrowed("my example website"),
        ))
    }
}

/// A parser of a row. If there is none, a line says so.
fn parser_of<'a>(
    rt: &HostRuntime,
    row: Row<'a>,
) -> io::Result<Option<Parser<'a, BasicEntities, Website>>> {
    let callback = row.has_callback.then_some(Website);
    let made = Parser::new_with_broken_link_callback(
        rt.alloc(),
        row.text,
        row.options,
        &BasicEntities,
        callback,
    );
    if made.is_err() {
        println!(rt; "no parser")?;
    }
    Ok(made.ok())
}

/// Writes the items of a walk, and goes on until four calls returned the error item or `None`.
fn walk<T: Debug + Drop, I: Iterator<Item = Result<T, AllocError>> + Drop>(
    rt: &HostRuntime,
    mut iter: I,
) -> io::Result<()> {
    let mut ends = 0;
    while ends < 4 {
        match iter.next() {
            Some(Ok(item)) => println!(rt; "{item:?}")?,
            Some(Err(_)) => {
                println!(rt; "error")?;
                ends += 1;
            }
            None => {
                println!(rt; "None")?;
                ends += 1;
            }
        }
    }
    Ok(())
}

/// A walk over the events.
fn events(rt: &HostRuntime, row: Row<'_>) -> io::Result<()> {
    match parser_of(rt, row)? {
        Some(parser) => walk(rt, parser),
        None => Ok(()),
    }
}

/// A walk over the events with their ranges.
fn ranges(rt: &HostRuntime, row: Row<'_>) -> io::Result<()> {
    match parser_of(rt, row)? {
        Some(parser) => walk(rt, parser.into_offset_iter()),
        None => Ok(()),
    }
}

/// A walk over the events with merged texts.
fn merged(rt: &HostRuntime, row: Row<'_>) -> io::Result<()> {
    match parser_of(rt, row)? {
        Some(parser) => walk(rt, TextMergeStream::new(rt.alloc(), parser)),
        None => Ok(()),
    }
}

/// A walk over the events with merged texts and their ranges.
fn merged_ranges(rt: &HostRuntime, row: Row<'_>) -> io::Result<()> {
    match parser_of(rt, row)? {
        Some(parser) => walk(
            rt,
            TextMergeWithOffset::new(rt.alloc(), parser.into_offset_iter()),
        ),
        None => Ok(()),
    }
}

/// Writes whether `push_html` succeeded, and then the string: its old text and the appended HTML.
fn html(rt: &HostRuntime, row: Row<'_>) -> io::Result<()> {
    let mut out = String::new(rt.alloc());
    if out.push_str("old ").is_err() {
        return println!(rt; "no old text");
    }
    let Some(parser) = parser_of(rt, row)? else {
        return Ok(());
    };
    match push_html(&mut out, parser) {
        Ok(()) => println!(rt; "html")?,
        Err(_) => println!(rt; "error")?,
    }
    print!(rt; "{}", out.as_str())
}

/// A reader of a text.
#[derive(Drop)]
struct Source<'a> {
    left: &'a [u8],
}

impl Read for Source<'_> {
    fn read(&mut self, buf: &mut [u8]) -> io::Result<usize> {
        let count = self.left.len().min(buf.len());
        buf[..count].copy_from_slice(&self.left[..count]);
        self.left = &self.left[count..];
        Ok(count)
    }
}

/// Runs `run` with its output on standard output, and then writes its result.
fn run_on(rt: &HostRuntime, row: Row<'_>) -> io::Result<()> {
    let mut reader = Watched::new(Source {
        left: row.text.as_bytes(),
    });
    let mut writer = Watched::new(rt.stdout());
    let ended = run(
        rt.alloc(),
        &mut reader,
        &mut writer,
        row.options,
        &BasicEntities,
    );
    println!(rt; "{ended:?}")
}

/// The first line of a text as a leaf.
fn leaf_of<'a>(alloc: Global, text: &'a str) -> Result<LeafText<'a>, AllocError> {
    let end = text.find('\n').unwrap_or(text.len());
    let line = LeafLine {
        start: 0,
        content_end: end,
        line_end: end,
    };
    let mut leaf = LeafText::new(alloc, text);
    leaf.read(&[line], false)?;
    Ok(leaf)
}

/// A table of footnotes with the label `1`.
fn footnotes_of(alloc: Global) -> Result<FootnoteDefs, AllocError> {
    let mut footnotes = FootnoteDefs::new(alloc);
    footnotes.insert(
        FootnoteLabel::new(alloc, "1")?,
        FootnoteDef { use_count: 0 },
    )?;
    Ok(footnotes)
}

/// Writes the results of four calls of `resolve`. The last leaf is empty, and an empty leaf takes no memory.
fn resolve(rt: &HostRuntime, row: Row<'_>) -> io::Result<()> {
    let (Ok(leaf), Ok(empty), Ok(mut footnotes)) = (
        leaf_of(rt.alloc(), row.text),
        leaf_of(rt.alloc(), ""),
        footnotes_of(rt.alloc()),
    ) else {
        return println!(rt; "no leaf");
    };
    let references = RefDefs::new(rt.alloc());
    let special = special_bytes(row.options);
    let reader = Reader {
        entities: &BasicEntities,
        references: &references,
        options: row.options,
        special: &special,
    };
    let mut state = InlineState::new(rt.alloc(), row.text.len());
    for it in [&leaf, &leaf, &leaf, &empty] {
        match state.resolve(it, &reader, &mut footnotes, &mut Website) {
            Ok(()) => println!(rt; "{} slots", state.slots.len())?,
            Err(_) => println!(rt; "error")?,
        }
    }
    Ok(())
}

/// Writes the texts of some names of a file of entities, or the fault.
fn entities(rt: &HostRuntime, row: Row<'_>) -> io::Result<()> {
    match read_entities(rt.alloc(), row.text.as_bytes()) {
        Ok(names) => {
            for name in ["ouml", "x", "amp", "zzz"] {
                println!(rt; "{name} {:?}", names.get_entity(name))?;
            }
            Ok(())
        }
        Err(fault) => println!(rt; "{fault:?}"),
    }
}

/// Pushes the text to a stream in chunks of three bytes, each once more if it is refused, and writes what the stream has after each try.
fn pushed(rt: &HostRuntime, row: Row<'_>) -> io::Result<()> {
    let mut stream = Stream::new(rt.alloc(), row.options, &BasicEntities, row.text.len());
    for chunk in row.text.as_bytes().chunks(3) {
        if let Err(fault) = stream.push_bytes(chunk) {
            println!(rt; "{fault:?} {:?} {}", stream.text(), stream.ends_inside_character())?;
            if stream.push_bytes(chunk).is_err() {
                return println!(rt; "refused twice");
            }
        }
        println!(rt; "Ok {:?} {}", stream.text(), stream.ends_inside_character())?;
    }
    Ok(())
}

/// The call that a letter names.
fn call(rt: &HostRuntime, name: u8, row: Row<'_>) -> io::Result<()> {
    match name {
        b'e' => events(rt, row),
        b'r' => ranges(rt, row),
        b'm' => merged(rt, row),
        b'o' => merged_ranges(rt, row),
        b'h' => html(rt, row),
        b'u' => run_on(rt, row),
        b's' => resolve(rt, row),
        b'n' => entities(rt, row),
        b'p' => pushed(rt, row),
        _ => println!(rt; "no such call"),
    }
}

fn main(rt: HostRuntime) -> ExitCode {
    let mut given = [0u8; 256];
    let length = rt.stdin().read(&mut given).unwrap_or(0);
    let ([name, callback, a, b, c, d, ..], Ok(text)) = (
        given,
        str::from_utf8(&given[6..length.max(6)]),
    ) else {
        return ExitCode::FAILURE;
    };
    let row = Row {
        text,
        options: Options::from_bits_truncate(u32::from_le_bytes([a, b, c, d])),
        has_callback: callback == b'c',
    };
    match call(&rt, name, row) {
        Ok(()) => ExitCode::SUCCESS,
        Err(_) => ExitCode::FAILURE,
    }
}
