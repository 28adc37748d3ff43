// A text that grows, with its HTML: after each refresh it is the HTML of the whole text, and settled HTML only grows unless something is
// defined.

use bitflags::Flags;
use cmark_parser::{to_html_within, to_safe_html};
use cmark_stream::{Change, Stream};
use cmark_values::{BasicEntities, Options};
use std::alloc::{AllocError, Global};
use std::process::Abort;
use std::test::Fail;

const LIMIT: usize = 100_000;

// Pieces of texts. Texts of the first ones define nothing.
const PIECES: &[&str] = &[
    "a", "b c", "\n", "\n\n", "\n\n", "\r", "\r\n", "- ", "1. ", "> ", "# ", "    ", "```\n", "`", "*", "**", "_", "~~", "$", "<div>\n",
    "<!--", "-->", "|", "|-|\n", "a|b\n", "-|-\n", "---\n", "===\n", "\t", "é", "![", "](u)", "[", "]", "<b>", "&amp;", "\\", "[^x]", ":",
    ": d\n", "+++\n", "{#i}", "\u{0}", "- [x] t\n", "> [!NOTE]\n", "[[w]]", "]: /u\n", "[a]: /u\n\n", "[^x]: n\n\n", "[a]",
];
const UNDEFINED: u64 = 46;

// The next number of a simple random sequence.
fn next(seed: u64) -> u64 {
    seed.wrapping_mul(6364136223846793005).wrapping_add(1442695040888963407)
}

// What a renderer has: the settled HTML, to which it appends.
fn append(html: &mut String, change: Change, settled: &str) -> Result<(), AllocError> {
    match change {
        Change::Grown => {}
        Change::Anew => html.clear(),
    }
    let new = match settled.get(html.len()..) {
        Some(new) => new,
        None => "",
    };
    html.push_str(new)
}

fn joined(alloc: Global, stream: &Stream<'_, BasicEntities>) -> Result<String, AllocError> {
    let mut all = String::from_str(alloc, stream.settled())?;
    all.push_str(stream.tail())?;
    Ok(all)
}

// What HTML a stream has.
#[derive(Clone, Copy)]
enum Kind {
    Plain,
    Safe,
}

fn stream_of(alloc: Global, kind: Kind, options: Options) -> Result<Stream<'static, BasicEntities>, AllocError> {
    match kind {
        Kind::Plain => Ok(Stream::new(alloc, options, &BasicEntities, LIMIT)),
        Kind::Safe => Stream::new_safe(alloc, options, &BasicEntities, LIMIT, "tel"),
    }
}

fn whole_html(alloc: Global, kind: Kind, text: &str, options: Options) -> Result<String, AllocError> {
    match kind {
        Kind::Plain => to_html_within(alloc, text, options, &BasicEntities, LIMIT),
        Kind::Safe => to_safe_html(alloc, text, options, &BasicEntities, "tel"),
    }
}

// Compares a stream with the HTML of each beginning of a random text. Returns how often settled HTML was kept.
fn compare(alloc: Global, rt: &impl Abort, kind: Kind, options: Options, mut seed: u64, texts: u64, choice: u64) -> Result<usize, Fail> {
    let mut kept = 0;
    for _ in 0..texts {
        let mut stream = stream_of(alloc, kind, options)?;
        let mut shown = String::new(alloc);
        for _ in 0..30 {
            seed = next(seed);
            stream.push(PIECES[((seed >> 33) % choice) as usize])?;
            if (seed >> 20) % 4 == 0 {
                continue;
            }
            let change = stream.refresh()?;
            append(&mut shown, change, stream.settled())?;
            if !stream.settled().is_empty() {
                kept += 1;
            }
            let whole = whole_html(alloc, kind, stream.text(), options)?;
            let all = joined(alloc, &stream)?;
            assert_eq!(rt; all.as_str(), whole.as_str());
            assert_eq!(rt; shown.as_str(), stream.settled());
        }
    }
    Ok(kept)
}

#[test]
fn random_texts_have_their_html(rt: HostRuntime) -> Result<(), Fail> {
    for options in [Options::empty(), Options::GITHUB, Options::all()] {
        for kind in [Kind::Plain, Kind::Safe] {
            let kept = compare(rt.alloc(), &rt, kind, options, 1, 300, PIECES.len() as u64)?;
            println!(rt; "kept {}", kept)?;
        }
    }
    Ok(())
}

#[test]
fn random_texts_without_definitions_have_their_html(rt: HostRuntime) -> Result<(), Fail> {
    for options in [
        Options::empty(),
        Options::GITHUB,
        Options::ENABLE_YAML_STYLE_METADATA_BLOCKS,
        Options::ENABLE_PLUSES_DELIMITED_METADATA_BLOCKS,
        Options::ENABLE_DEFINITION_LIST,
        Options::all(),
    ] {
        let kept = compare(rt.alloc(), &rt, Kind::Plain, options, 2, 300, UNDEFINED)?;
        println!(rt; "kept {}", kept)?;
        assert!(rt; kept > 300);
    }
    Ok(())
}

// Texts with options, and the HTML that is settled after them.
const SETTLED: &[(&str, Options, &str)] = &[
    // front matter bars nothing
    ("---\na: b\n---\n# c\n\nd\n\n", Options::ENABLE_YAML_STYLE_METADATA_BLOCKS, "<h1>c</h1>\n"),
    ("+++\na = 1\n+++\n\nc\n\nd\n\n", Options::ENABLE_PLUSES_DELIMITED_METADATA_BLOCKS, "<p>c</p>\n"),
    // the end of the metadata may still come
    ("---\n# c\n\nd\n\n", Options::ENABLE_YAML_STYLE_METADATA_BLOCKS, ""),
    ("a\n\n---\n# c\n\nd\n\n", Options::ENABLE_YAML_STYLE_METADATA_BLOCKS, "<p>a</p>\n"),
    // a paragraph is settled, but not directly after a definition list
    ("a\n\nb\n\n", Options::ENABLE_DEFINITION_LIST, "<p>a</p>\n"),
    ("a\n: b\n\nc\n\n", Options::ENABLE_DEFINITION_LIST, ""),
    ("a\n: b\n\n# c\n\n", Options::ENABLE_DEFINITION_LIST, "<dl>\n<dt>a</dt>\n<dd>b</dd>\n</dl>\n"),
];

#[test]
fn texts_with_metadata_and_definitions_are_settled(rt: HostRuntime) -> Result<(), Fail> {
    for (text, options, settled) in SETTLED {
        let mut stream = stream_of(rt.alloc(), Kind::Plain, *options)?;
        stream.push(text)?;
        stream.refresh()?;
        assert_eq!(rt; stream.settled(), *settled);
    }
    Ok(())
}
