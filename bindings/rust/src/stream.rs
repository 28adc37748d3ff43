//! A text that grows at its end, with its HTML.

use crate::html::list_of;
use crate::{native, Error, Options};

/// The effect of a refresh on the settled HTML.
#[derive(Clone, Copy, Debug, PartialEq, Eq, Hash)]
pub enum Change {
    /// The settled HTML begins with the settled HTML of before.
    Grown,
    /// The settled HTML of before is dropped, and nothing is settled: the text defines a link or a footnote, so that earlier blocks may have
    /// changed.
    Anew,
}

/// A text that grows at its end, such as the output of a language model, with the HTML of all of it.
///
/// The HTML is in two parts. [`settled`](Stream::settled) is the HTML of blocks that no further text changes, as long as the text defines
/// neither a link nor a footnote. [`tail`](Stream::tail) is the HTML of the other blocks. A refresh reads the lines after the settled blocks;
/// of the others it only checks that they are UTF-8. It reads the whole text in three cases: the text defines a link or a footnote, a line
/// may begin metadata whose end may still come, or the text is one block. [`is_due`](Stream::is_due) says when a refresh is worth it.
///
/// ```
/// use pulldown_cmark::{Change, Options, Stream};
///
/// let mut stream = Stream::new(Options::empty());
/// let mut page = String::new();
/// for chunk in ["# Soup\n\nOnions and *ca", "rrots*\n\nSalt"] {
///     stream.push(chunk)?;
///     if stream.refresh()? == Change::Anew {
///         page.clear();
///     }
///     page.push_str(stream.added());
///     println!("{page}{}", stream.tail());
/// }
/// assert_eq!(page, "<h1>Soup</h1>\n");
/// assert_eq!(stream.tail(), "<p>Onions and <em>carrots</em></p>\n<p>Salt</p>\n");
/// # Ok::<(), pulldown_cmark::Error>(())
/// ```
#[derive(Clone, Debug)]
pub struct Stream {
    text: String,
    /// The first bytes of a character, at the end of what was pushed.
    begun: Begun,
    /// The options as the library's calls take them.
    bits: u32,
    limit: usize,
    /// For safe HTML: further schemes for addresses, with blanks between them.
    schemes: Option<String>,
    /// The byte offset in the text after the settled blocks.
    cut: usize,
    /// The bytes of the text at the last successful refresh.
    read: usize,
    settled: String,
    /// The byte offset in `settled` at which the HTML of the last refresh begins.
    added: usize,
    tail: String,
}

/// The first bytes of a character: at most three.
#[derive(Clone, Copy, Debug, Default)]
struct Begun {
    bytes: [u8; 3],
    len: usize,
}

impl Begun {
    fn as_bytes(&self) -> &[u8] {
        &self.bytes[..self.len]
    }

    /// Takes the first bytes of a character; more than three are not UTF-8.
    fn of(bytes: &[u8]) -> Result<Begun, Error> {
        let mut begun = Begun::default();
        let place = begun.bytes.get_mut(..bytes.len());
        place.ok_or(Error::NotUtf8)?.copy_from_slice(bytes);
        begun.len = bytes.len();
        Ok(begun)
    }
}

/// The whole characters at the start of some bytes, and the first bytes of a character that follow them.
fn whole_characters(bytes: &[u8]) -> Result<(&str, Begun), Error> {
    let size = match std::str::from_utf8(bytes) {
        Ok(text) => return Ok((text, Begun::default())),
        Err(error) if error.error_len().is_none() => error.valid_up_to(),
        Err(_) => return Err(Error::NotUtf8),
    };
    let (whole, begun) = bytes.split_at(size);
    let text = std::str::from_utf8(whole).map_err(|_| Error::NotUtf8)?;
    Ok((text, Begun::of(begun)?))
}

impl Stream {
    /// The reference expansion limit of [`Stream::new`], in bytes.
    pub const DEFAULT_LIMIT: usize = 100_000;

    /// Returns the empty text, which is read with these options within [`Stream::DEFAULT_LIMIT`].
    ///
    /// Its HTML is not safe to show for a text of a stranger; that of [`Stream::new_safe`] is.
    pub fn new(options: Options) -> Stream {
        Stream::new_within(options, Stream::DEFAULT_LIMIT)
    }

    /// Returns the empty text, which is read with these options within a reference expansion limit, in bytes, as
    /// [`to_html_within`](crate::html::to_html_within) reads a text.
    pub fn new_within(options: Options, limit: usize) -> Stream {
        Stream {
            text: String::new(),
            begun: Begun::default(),
            bits: options.library_bits(),
            limit,
            schemes: None,
            cut: 0,
            read: 0,
            settled: String::new(),
            added: 0,
            tail: String::new(),
        }
    }

    /// Returns the empty text, whose HTML is safe to show, also for a text of a stranger. `schemes` are further schemes for addresses, as
    /// for [`to_safe_html`](crate::html::to_safe_html).
    ///
    /// ```
    /// use pulldown_cmark::{Options, Stream};
    ///
    /// let mut stream = Stream::new_safe(Options::empty(), Stream::DEFAULT_LIMIT, &["tel"])?;
    /// stream.push("<b> [a](javascript:b) [c](tel:1)")?;
    /// stream.refresh()?;
    /// assert_eq!(stream.tail(), "<p>&lt;b&gt; <a href=\"\">a</a> <a href=\"tel:1\">c</a></p>\n");
    /// # Ok::<(), pulldown_cmark::Error>(())
    /// ```
    ///
    /// # Errors
    ///
    /// [`Error::OutOfMemory`] if memory is refused.
    pub fn new_safe(options: Options, limit: usize, schemes: &[&str]) -> Result<Stream, Error> {
        Ok(Stream {
            schemes: Some(list_of(schemes)?),
            ..Stream::new_within(options, limit)
        })
    }

    /// The text so far: all chunks, joined. The first bytes of a character are not in it until the rest of them is pushed.
    pub fn text(&self) -> &str {
        &self.text
    }

    /// The HTML of the settled blocks, at the last successful refresh.
    pub fn settled(&self) -> &str {
        &self.settled
    }

    /// The end of [`settled`](Stream::settled) that the last successful refresh has added. A page appends it.
    pub fn added(&self) -> &str {
        &self.settled[self.added..]
    }

    /// The HTML of the other blocks, at the last successful refresh. The next refresh replaces it.
    pub fn tail(&self) -> &str {
        &self.tail
    }

    /// Returns the HTML of the whole text, as it was at the last successful refresh: `settled` and then `tail`.
    ///
    /// # Errors
    ///
    /// [`Error::OutOfMemory`] if memory is refused.
    pub fn html(&self) -> Result<String, Error> {
        let mut html = String::new();
        html.try_reserve(self.settled.len() + self.tail.len())?;
        html.push_str(&self.settled);
        html.push_str(&self.tail);
        Ok(html)
    }

    /// Whether the bytes that were pushed end inside a character. If no more arrive, the text was cut off.
    pub fn ends_inside_character(&self) -> bool {
        self.begun.len > 0
    }

    /// Whether the text has grown enough for the next refresh: the lines that a refresh reads by more than a sixteenth, and the whole text,
    /// which a refresh checks, by more than a thousandth.
    ///
    /// A program that refreshes only then, and once at the end, reads at most 36 bytes for each byte of the text, whatever the text is.
    ///
    /// ```
    /// use pulldown_cmark::{Options, Stream};
    ///
    /// let (mut stream, mut refreshes) = (Stream::new(Options::empty()), 0);
    /// for _ in 0..1000 {
    ///     stream.push("one block ")?;
    ///     if stream.is_due() {
    ///         stream.refresh()?;
    ///         refreshes += 1;
    ///     }
    /// }
    /// stream.refresh()?;
    /// assert!(refreshes < 100);
    /// # Ok::<(), pulldown_cmark::Error>(())
    /// ```
    pub fn is_due(&self) -> bool {
        (self.read - self.cut) / 16 + self.read / 1024 < self.text.len() - self.read
    }

    /// Appends a chunk to the text. Nothing is read: the HTML stays as it is until the next refresh.
    ///
    /// # Errors
    ///
    /// [`Error::OutOfMemory`] if memory is refused, and [`Error::NotUtf8`] if the bytes before the chunk end inside a character. The text is
    /// then as before.
    pub fn push(&mut self, chunk: &str) -> Result<(), Error> {
        if self.ends_inside_character() {
            return self.push_bytes(chunk.as_bytes());
        }
        self.append(chunk)
    }

    /// Appends a chunk of bytes to the text. They may end inside a character; the next chunk continues it.
    ///
    /// ```
    /// use pulldown_cmark::{Error, Options, Stream};
    ///
    /// let mut stream = Stream::new(Options::empty());
    /// stream.push_bytes(b"caf\xC3")?;
    /// assert_eq!((stream.text(), stream.ends_inside_character()), ("caf", true));
    /// assert_eq!(stream.push_bytes(b"!"), Err(Error::NotUtf8));
    /// stream.push_bytes(b"\xA9")?;
    /// assert_eq!(stream.text(), "café");
    /// # Ok::<(), Error>(())
    /// ```
    ///
    /// # Errors
    ///
    /// [`Error::OutOfMemory`] if memory is refused, and [`Error::NotUtf8`] if the chunk is not UTF-8 after the bytes before it. The text is
    /// then as before.
    pub fn push_bytes(&mut self, chunk: &[u8]) -> Result<(), Error> {
        let mut bytes = Vec::new();
        bytes.try_reserve(self.begun.len + chunk.len())?;
        bytes.extend_from_slice(self.begun.as_bytes());
        bytes.extend_from_slice(chunk);
        let (text, begun) = whole_characters(&bytes)?;
        self.append(text)?;
        self.begun = begun;
        Ok(())
    }

    /// Appends whole characters to the text.
    fn append(&mut self, chunk: &str) -> Result<(), Error> {
        self.text.try_reserve(chunk.len())?;
        self.text.push_str(chunk);
        Ok(())
    }

    /// Reads the lines after the settled blocks. Afterwards `settled` and `tail` are the HTML of the whole text.
    ///
    /// # Errors
    ///
    /// [`Error::OutOfMemory`] if memory is refused. The text and its HTML are then as before.
    pub fn refresh(&mut self) -> Result<Change, Error> {
        let mut part = match &self.schemes {
            None => native::stream(&self.text, self.bits, self.limit, self.cut)?,
            Some(list) => native::safe_stream(&self.text, self.bits, list, self.limit, self.cut)?,
        };
        self.settled.try_reserve(part.settled)?;
        let is_anew = part.cut == 0 && !self.settled.is_empty();
        if part.cut == 0 {
            self.settled.clear();
        }
        self.added = self.settled.len();
        self.settled.push_str(&part.html[..part.settled]);
        part.html.drain(..part.settled);
        self.tail = part.html;
        self.cut = part.cut;
        self.read = self.text.len();
        Ok(if is_anew { Change::Anew } else { Change::Grown })
    }
}
