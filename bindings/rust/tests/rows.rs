//! Reads texts with their HTML and their events from the file that PULLDOWN_CMARK_CASES names, and compares what this crate makes of them.
//!
//! `tests/bindings/bindings_rust.py` of the repository writes the file: the HTML and the events come from the proved programs. Each case has the
//! bits of the options, and then the text, its HTML and the lines of its events, each after its length.

use pulldown_cmark::{html, Event, Options, Parser};
use std::io::Read;

/// The next number of four bytes, or `None` at the end.
fn number(bytes: &mut &[u8]) -> Option<u32> {
    let mut four = [0; 4];
    bytes.read_exact(&mut four).ok()?;
    Some(u32::from_le_bytes(four))
}

/// The next text.
fn text<'a>(bytes: &mut &'a [u8]) -> &'a str {
    let length = number(bytes).unwrap() as usize;
    let (text, rest) = bytes.split_at(length);
    *bytes = rest;
    std::str::from_utf8(text).unwrap()
}

/// The name of an event in the lines of events.
fn name(event: &Event) -> &'static str {
    match event {
        Event::Start(_) => "Start",
        Event::End(_) => "End",
        Event::Text(_) => "Text",
        Event::Code(_) => "Code",
        Event::InlineMath(_) => "InlineMath",
        Event::DisplayMath(_) => "DisplayMath",
        Event::Html(_) => "Html",
        Event::InlineHtml(_) => "InlineHtml",
        Event::FootnoteReference(_) => "FootnoteReference",
        Event::SoftBreak => "SoftBreak",
        Event::HardBreak => "HardBreak",
        Event::Rule => "Rule",
        Event::TaskListMarker(_) => "TaskListMarker",
    }
}

/// Compares everything that is made of a text.
fn compare(text: &str, options: Options, wanted: &str, lines: &str) {
    assert_eq!(
        html::to_html(text, options).as_deref(),
        Ok(wanted),
        "{text:?}"
    );
    let mut pushed = String::new();
    html::push_html(&mut pushed, Parser::new_ext(text, options));
    assert_eq!(pushed, wanted, "{text:?}");
    let mut lines = lines.lines();
    for (event, range) in Parser::new_ext(text, options).into_offset_iter() {
        let begin = format!(
            "{{\"range\":[{},{}],\"event\":[\"{}\"",
            range.start,
            range.end,
            name(&event)
        );
        let line = lines.next().unwrap();
        assert!(
            line.starts_with(&begin),
            "{line} in the place of {begin}: {text:?}"
        );
    }
    assert_eq!(lines.next(), None, "{text:?}");
}

fn main() {
    let Some(file) = std::env::var_os("PULLDOWN_CMARK_CASES") else {
        println!("rows: not tried: PULLDOWN_CMARK_CASES names no file");
        return;
    };
    let file = std::fs::read(file).unwrap();
    let (mut bytes, mut compared) = (&file[..], 0);
    while let Some(bits) = number(&mut bytes) {
        let options = Options::from_bits(bits).unwrap();
        let (text, wanted, lines) = (text(&mut bytes), text(&mut bytes), text(&mut bytes));
        compare(text, options, wanted, lines);
        compared += 1;
    }
    println!("rows: {compared} compared");
}
