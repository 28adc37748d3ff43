//! Bytes that are pushed to a text that grows, cut anywhere. The text is compared with what the standard library makes of all bytes.

use bitflags::Flags;
use cmark_stream::{Stream, StreamFault};
use cmark_values::{BasicEntities, Options};
use std::alloc::{AllocError, Global};
use std::process::Abort;
use std::str;
use std::test::Fail;

const LIMIT: usize = 100_000;

// The first and the last character of each length among them.
const TEXTS: &[&str] = &[
    "", "a", "\u{e9}", "\u{20ac}", "\u{1f600}", "a\u{e9}b\u{20ac}c\u{1f600}d", "\u{0}\u{7f}\u{80}\u{7ff}\u{800}\u{ffff}\u{10000}\u{10ffff}",
    "\u{d7ff}\u{e000}\u{fffd}\u{feff}", "\u{e9}\u{e9}\u{20ac}\u{20ac}\u{1f600}\u{1f600}",
];

// Bytes that no bytes after them make UTF-8.
const FAULTS: &[&[u8]] = &[
    // a byte that continues a character, first
    b"\x80", b"\xbf", b"\x80a",
    // a character in more bytes than it needs
    b"\xc0\x80", b"\xc1\xbf", b"\xe0\x80\x80", b"\xe0\x9f\xbf", b"\xf0\x80\x80\x80", b"\xf0\x8f\xbf\xbf",
    // half a pair of UTF-16
    b"\xed\xa0\x80", b"\xed\xbf\xbf",
    // past U+10FFFF
    b"\xf4\x90\x80\x80", b"\xf5\x80\x80\x80", b"\xf8\x88\x80\x80\x80", b"\xfe", b"\xff",
    // a character that is cut off, before another byte
    b"\xc3a", b"\xc3\xc3", b"\xe2a", b"\xe2\x82a", b"\xe2\x82\xe2", b"\xf0a", b"\xf0\x9f\x98a", b"\xf0\x9f\x98\xf0",
];

fn stream(alloc: Global) -> Stream<'static, BasicEntities> {
    Stream::new(alloc, Options::empty(), &BasicEntities, LIMIT)
}

// The length of the longest text at the front, and whether the bytes after it can become one. The standard library says so.
fn judged(bytes: &[u8]) -> (usize, bool) {
    match str::from_utf8(bytes) {
        Ok(_) => (bytes.len(), true),
        Err(error) => (error.valid_up_to(), error.error_len().is_none()),
    }
}

// Asserts that the stream has the text of these bytes.
fn has(rt: &impl Abort, stream: &Stream<'_, BasicEntities>, bytes: &[u8]) {
    let (size, _) = judged(bytes);
    assert_eq!(rt; stream.text().as_bytes(), &bytes[..size]);
    assert_eq!(rt; stream.ends_inside_character(), size < bytes.len());
}

// Pushes bytes in these chunks, and compares the stream after each with the bytes so far. Ends at a fault, which changes nothing.
fn push_all(rt: &impl Abort, alloc: Global, bytes: &[u8], ends: &[usize]) -> Result<(), Fail> {
    let mut stream = stream(alloc);
    let mut from = 0;
    for to in ends {
        let pushed = stream.push_bytes(&bytes[from..*to]);
        let (_, is_good) = judged(&bytes[..*to]);
        if !is_good {
            assert_eq!(rt; pushed, Err(StreamFault::NotUtf8));
            has(rt, &stream, &bytes[..from]);
            return Ok(());
        }
        assert_eq!(rt; pushed, Ok(()));
        has(rt, &stream, &bytes[..*to]);
        from = *to;
    }
    Ok(())
}

#[test]
fn texts_are_cut_anywhere(rt: HostRuntime) -> Result<(), Fail> {
    for text in TEXTS {
        let size = text.len();
        for second in 0..=size {
            for first in 0..=second {
                push_all(&rt, rt.alloc(), text.as_bytes(), &[first, second, size])?;
            }
        }
    }
    Ok(())
}

#[test]
fn chunks_of_any_size_are_joined(rt: HostRuntime) -> Result<(), Fail> {
    for text in TEXTS {
        for size in 1..=5usize {
            let mut ends = Vec::new(rt.alloc());
            let mut end = 0;
            while end < text.len() {
                end = (end + size).min(text.len());
                ends.push(end)?;
            }
            push_all(&rt, rt.alloc(), text.as_bytes(), ends.as_slice())?;
        }
    }
    Ok(())
}

#[test]
fn faults_change_nothing(rt: HostRuntime) -> Result<(), Fail> {
    for fault in FAULTS {
        let (_, is_good) = judged(*fault);
        assert!(rt; !is_good);
        for front in ["", "a", "\u{e9}\u{20ac}"] {
            let mut bytes = Vec::new(rt.alloc());
            bytes.extend_from_slice(front.as_bytes())?;
            bytes.extend_from_slice(*fault)?;
            let size = bytes.len();
            for second in 0..=size {
                for first in 0..=second {
                    push_all(&rt, rt.alloc(), bytes.as_slice(), &[first, second, size])?;
                }
            }
        }
    }
    Ok(())
}

#[test]
fn a_fault_is_no_end(rt: HostRuntime) -> Result<(), Fail> {
    let mut stream = stream(rt.alloc());
    stream.push_bytes(b"caf\xc3")?;
    stream.refresh()?;
    assert_eq!(rt; stream.tail(), "<p>caf</p>\n");
    assert_eq!(rt; stream.push_bytes(b"\xc3"), Err(StreamFault::NotUtf8));
    assert_eq!(rt; stream.push("\u{e9}"), Err(StreamFault::NotUtf8));
    assert_eq!(rt; stream.push(""), Err(StreamFault::NotUtf8));
    assert_eq!(rt; stream.text(), "caf");
    assert!(rt; stream.ends_inside_character());
    stream.push_bytes(b"\xa9")?;
    assert!(rt; !stream.ends_inside_character());
    stream.push(" cr\u{e8}me")?;
    stream.refresh()?;
    assert_eq!(rt; stream.tail(), "<p>caf\u{e9} cr\u{e8}me</p>\n");
    Ok(())
}

#[test]
fn faults_have_messages(rt: HostRuntime) -> Result<(), AllocError> {
    let alloc = rt.alloc();
    let message = format!(in alloc; "{}, {}", StreamFault::NoMemory, StreamFault::NotUtf8)?;
    assert_eq!(rt; message.as_str(), "out of memory, input is not UTF-8");
    Ok(())
}
