//! Texts that grow: their HTML is that of the whole text after each refresh.

use pulldown_cmark::{html, Change, Error, Options, Stream};

/// Pieces of texts. Texts of the first ones define nothing.
const PIECES: &[&str] = &[
    "a",
    "b c",
    "\n",
    "\n\n",
    "\n\n",
    "\r",
    "- ",
    "1. ",
    "> ",
    "# ",
    "    ",
    "```\n",
    "`",
    "*",
    "**",
    "~~",
    "$",
    "<div>\n",
    "<!--",
    "-->",
    "|",
    "a|b\n-|-\n",
    "---\n",
    "===\n",
    "\t",
    "é",
    "\u{1f600}",
    "\0",
    "![",
    "](u)",
    "[",
    "]",
    "<b>",
    "&amp;",
    "\\",
    ":",
    ": d\n",
    "+++\n",
    "> [!NOTE]\n",
    "a\n\nb\n\n",
    "]: /u\n",
    "[a]: /u\n\n",
    "[^x]: n\n\n",
    "[a]",
];
const UNDEFINED: usize = 40;

/// Random numbers, always the same ones.
struct Draw(u64);

impl Draw {
    /// The next number, which is less than `below`.
    fn next(&mut self, below: usize) -> usize {
        self.0 = self
            .0
            .wrapping_mul(6364136223846793005)
            .wrapping_add(1442695040888963407);
        (self.0 >> 33) as usize % below
    }

    fn part(&mut self, choice: usize, most: usize) -> String {
        let pieces = 0..self.next(most);
        pieces.map(|_| PIECES[self.next(choice)]).collect()
    }

    /// A random text. Some texts have a definition late.
    fn text(&mut self) -> String {
        let choice = [UNDEFINED, PIECES.len()][self.next(2)];
        let definition = ["", "\n\n[a]: /b\n\n"][self.next(2)];
        self.part(choice, 30) + definition + &self.part(choice, 10)
    }

    fn options(&mut self) -> Options {
        let some = Options::ENABLE_TABLES | Options::ENABLE_SMART_PUNCTUATION;
        [Options::empty(), Options::GITHUB, some, Options::all()][self.next(4)]
    }
}

/// The text of bytes, without a character that they do not end.
fn text_of(bytes: &[u8]) -> &str {
    match std::str::from_utf8(bytes) {
        Ok(text) => text,
        Err(error) => std::str::from_utf8(&bytes[..error.valid_up_to()]).unwrap(),
    }
}

/// Pushes a text in chunks of bytes, and compares the HTML with that of the whole text after each refresh. Returns how often HTML was settled
/// and how often it was dropped.
fn compare(
    draw: &mut Draw,
    mut stream: Stream,
    whole: impl Fn(&str) -> Result<String, Error>,
) -> Result<(usize, usize), Error> {
    let (text, longest) = (draw.text(), [1, 4, 20][draw.next(3)]);
    let (mut at, mut page, mut kept, mut dropped) = (0, String::new(), 0, 0);
    while at < text.len() {
        let end = text.len().min(at + 1 + draw.next(longest));
        let chunk = &text.as_bytes()[at..end];
        match std::str::from_utf8(chunk) {
            Ok(chunk) if !stream.ends_inside_character() => stream.push(chunk)?,
            _ => stream.push_bytes(chunk)?,
        }
        at = end;
        if stream.refresh()? == Change::Anew {
            assert_ne!(page, "");
            page.clear();
            dropped += 1;
        }
        page.push_str(stream.added());
        kept += usize::from(!page.is_empty());
        assert_eq!(stream.text(), text_of(&text.as_bytes()[..at]));
        assert_eq!(stream.ends_inside_character(), !text.is_char_boundary(at));
        assert_eq!(stream.html()?, whole(stream.text())?, "{:?}", stream.text());
        assert_eq!(stream.settled(), page);
        assert!(!stream.is_due());
        assert_eq!(stream.html()?, page.clone() + stream.tail());
    }
    Ok((kept, dropped))
}

#[test]
fn random_texts_have_their_html() -> Result<(), Error> {
    let (mut draw, mut kept, mut dropped) = (Draw(1), 0, 0);
    for _ in 0..300 {
        let options = draw.options();
        let limit = [0, 1, Stream::DEFAULT_LIMIT][draw.next(3)];
        let counts = match draw.next(3) {
            0 => {
                let stream = Stream::new_safe(options, Stream::DEFAULT_LIMIT, &["tel"])?;
                let whole = |text: &str| html::to_safe_html(text, options, &["tel"]);
                compare(&mut draw, stream, whole)?
            }
            1 => {
                let whole = |text: &str| html::to_html(text, options);
                compare(&mut draw, Stream::new(options), whole)?
            }
            _ => {
                let whole = |text: &str| html::to_html_within(text, options, limit);
                compare(&mut draw, Stream::new_within(options, limit), whole)?
            }
        };
        kept += counts.0;
        dropped += counts.1;
    }
    assert!(kept > 300 && dropped > 5, "{kept}, {dropped}");
    Ok(())
}

/// One block in chunks of ten bytes, read by refreshes that are due: at most 18 bytes are read for each byte.
#[test]
fn refreshes_that_are_due_read_little() -> Result<(), Error> {
    let (mut stream, mut calls, mut read) = (Stream::new(Options::empty()), 0, 0);
    for count in 1..=2000 {
        stream.push("words and ")?;
        if stream.is_due() || count == 2000 {
            stream.refresh()?;
            calls += 1;
            read += stream.text().len();
        }
    }
    assert!(read <= 18 * stream.text().len(), "{read}");
    assert!((50..200).contains(&calls), "{calls}");
    assert_eq!(stream.html()?, html::to_html(stream.text(), Options::empty())?);
    Ok(())
}

#[test]
fn wrong_bytes_change_nothing() -> Result<(), Error> {
    for (before, wrong) in [
        (&b"a\xC3"[..], &b"!"[..]),
        (b"a\xC3", b"\xA9\xFF"),
        (b"a", b"\xA9"),
        (b"a\xF0\x9F\x98", b"a"),
        (b"", b"\xED\xA0\x80"),
    ] {
        let mut stream = Stream::new(Options::empty());
        stream.push("# a\n\n")?;
        stream.push_bytes(before)?;
        stream.refresh()?;
        let state = format!("{stream:?}");
        assert_eq!(stream.push_bytes(wrong), Err(Error::NotUtf8));
        assert_eq!(format!("{stream:?}"), state);
        if stream.ends_inside_character() {
            assert_eq!(stream.push("b"), Err(Error::NotUtf8));
            assert_eq!(format!("{stream:?}"), state);
        }
        stream.push("")?;
        stream.push_bytes(b"")?;
        assert_eq!(format!("{stream:?}"), state);
    }
    Ok(())
}

#[test]
fn a_character_arrives_in_four_parts() -> Result<(), Error> {
    let mut stream = Stream::new(Options::empty());
    for byte in "\u{1f600}".bytes() {
        assert_eq!(stream.text(), "");
        stream.push_bytes(&[byte])?;
    }
    stream.push("!")?;
    assert_eq!(stream.refresh()?, Change::Grown);
    assert_eq!(stream.html()?, "<p>\u{1f600}!</p>\n");
    Ok(())
}
