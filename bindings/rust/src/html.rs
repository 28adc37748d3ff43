//! HTML of events, and of texts.
//!
//! Events become flat records, and the library writes their HTML, also if a program has changed the events or made them itself. It is proved
//! that this is the HTML of the events of the records. That the records are those of the events is tested.
//!
//! None of this HTML is safe to show for a text of a stranger, except that of [`to_safe_html`] and [`push_safe_html`].

use crate::error::expect;
use crate::{encode, native, Error, Event, Options};
use std::fmt;
use std::io;

/// Appends the HTML of events to a string.
///
/// ```
/// use pulldown_cmark::{html, Parser};
///
/// let mut out = String::new();
/// html::push_html(&mut out, Parser::new("* alpha\n* beta\n"));
/// assert_eq!(out, "<ul>\n<li>alpha</li>\n<li>beta</li>\n</ul>\n");
/// ```
///
/// # Panics
///
/// If memory is refused; [`try_push_html`] then returns an error.
pub fn push_html<'a, I>(s: &mut String, iter: I)
where
    I: Iterator<Item = Event<'a>>,
{
    expect(try_push_html(s, iter));
}

/// Appends the HTML of events to a string, like [`push_html`].
///
/// # Errors
///
/// [`Error::OutOfMemory`] if memory is refused. The string is then as it was, and the iterator may have been read in part.
pub fn try_push_html<'a, I>(s: &mut String, iter: I) -> Result<(), Error>
where
    I: Iterator<Item = Event<'a>>,
{
    let html = render(iter)?;
    s.try_reserve(html.len())?;
    s.push_str(&html);
    Ok(())
}

/// Appends HTML that is safe to show to a string, whoever made the events. Otherwise it does what [`try_push_html`] does.
///
/// The HTML is that of the events' safe forms, and `schemes` are further schemes for addresses, both as for [`to_safe_html`].
///
/// ```
/// use pulldown_cmark::{html, Parser};
///
/// let mut out = String::new();
/// html::push_safe_html(&mut out, Parser::new("<b> [a](javascript:b)"), &[])?;
/// assert_eq!(out, "<p>&lt;b&gt; <a href=\"\">a</a></p>\n");
/// # Ok::<(), pulldown_cmark::Error>(())
/// ```
///
/// # Errors
///
/// [`Error::OutOfMemory`] if memory is refused. The string is then as it was, and the iterator may have been read in part.
pub fn push_safe_html<'a, I>(s: &mut String, iter: I, schemes: &[&str]) -> Result<(), Error>
where
    I: Iterator<Item = Event<'a>>,
{
    let html = native::safe_render(&records_of(iter)?, &list_of(schemes)?)?;
    s.try_reserve(html.len())?;
    s.push_str(&html);
    Ok(())
}

/// Writes the HTML of events to a stream, in one call of `write_all`.
///
/// ```
/// use pulldown_cmark::{html, Parser};
///
/// let mut bytes = Vec::new();
/// html::write_html_io(&mut bytes, Parser::new("# a"))?;
/// assert_eq!(bytes, b"<h1>a</h1>\n");
/// # Ok::<(), std::io::Error>(())
/// ```
///
/// # Errors
///
/// The error of the stream, or one of the kind [`io::ErrorKind::OutOfMemory`] if memory is refused; then nothing was written.
pub fn write_html_io<'a, I, W>(mut writer: W, iter: I) -> io::Result<()>
where
    I: Iterator<Item = Event<'a>>,
    W: io::Write,
{
    let html = render(iter).map_err(|_| io::ErrorKind::OutOfMemory)?;
    writer.write_all(html.as_bytes())
}

/// Writes the HTML of events to a formatter or a string, in one call of `write_str`.
///
/// ```
/// use pulldown_cmark::{html, Parser};
///
/// let mut out = String::new();
/// html::write_html_fmt(&mut out, Parser::new("# a"))?;
/// assert_eq!(out, "<h1>a</h1>\n");
/// # Ok::<(), std::fmt::Error>(())
/// ```
///
/// # Errors
///
/// The error of the writer, or [`fmt::Error`] if memory is refused; then nothing was written.
pub fn write_html_fmt<'a, I, W>(mut writer: W, iter: I) -> fmt::Result
where
    I: Iterator<Item = Event<'a>>,
    W: fmt::Write,
{
    writer.write_str(&render(iter).map_err(|_| fmt::Error)?)
}

/// The HTML of events.
fn render<'a>(iter: impl Iterator<Item = Event<'a>>) -> Result<String, Error> {
    native::render(&records_of(iter)?)
}

/// The records of events.
fn records_of<'a>(iter: impl Iterator<Item = Event<'a>>) -> Result<Vec<u8>, Error> {
    let mut records = Vec::new();
    for event in iter {
        encode::append(&mut records, &event)?;
    }
    Ok(records)
}

/// Schemes as the library takes them: one text with blanks between them.
pub(crate) fn list_of(schemes: &[&str]) -> Result<String, Error> {
    let mut listed = String::new();
    for scheme in schemes {
        listed.try_reserve(scheme.len() + 1)?;
        listed.push_str(scheme);
        listed.push(' ');
    }
    Ok(listed)
}

/// Returns the HTML of a text. This takes at most a third of the instructions of [`push_html`] with a parser.
///
/// It is not safe to show for a text of a stranger: raw HTML is kept as it is, links may lead to `javascript:`, and headings may have
/// attributes such as `onclick`. Use [`to_safe_html`] for such texts.
///
/// ```
/// use pulldown_cmark::{html, Options};
///
/// let found = html::to_html("~~Hi~~, *you*", Options::ENABLE_STRIKETHROUGH)?;
/// assert_eq!(found, "<p><del>Hi</del>, <em>you</em></p>\n");
/// # Ok::<(), pulldown_cmark::Error>(())
/// ```
///
/// # Errors
///
/// [`Error::OutOfMemory`] if memory is refused.
pub fn to_html(text: &str, options: Options) -> Result<String, Error> {
    native::html(text, options.library_bits())
}

/// Returns the HTML of a text within a reference expansion limit, in bytes.
///
/// References copy the destinations and titles of definitions. Once these have `limit` bytes, further references remain text. [`to_html`]
/// takes 100,000, or the length of the text if that is more. Like it, this is not for a text of a stranger.
///
/// ```
/// use pulldown_cmark::{html, Options};
///
/// let found = html::to_html_within("[x] [x]\n\n[x]: /u", Options::empty(), 1)?;
/// assert_eq!(found, "<p><a href=\"/u\">x</a> [x]</p>\n");
/// # Ok::<(), pulldown_cmark::Error>(())
/// ```
///
/// # Errors
///
/// [`Error::OutOfMemory`] if memory is refused.
pub fn to_html_within(text: &str, options: Options, limit: usize) -> Result<String, Error> {
    native::html_within(text, options.library_bits(), limit)
}

/// Returns HTML that is safe to show, also for a text of a stranger.
///
/// HTML in the text is shown as text, and a heading has no attribute but its anchor. Addresses are relative or begin with `http:`,
/// `https:`, `mailto:` or one of `schemes`; all others become empty. `javascript`, `vbscript`, `data` and `file` are never taken from
/// `schemes`. It is proved that the library's HTML has only these tags and addresses. It is not proved that links lead to good places, that
/// images do not track, or what a math renderer does with formulas.
///
/// ```
/// use pulldown_cmark::{html, Options};
///
/// let found = html::to_safe_html("<b> [a](javascript:b) [c](tel:1)", Options::empty(), &["tel"])?;
/// assert_eq!(found, "<p>&lt;b&gt; <a href=\"\">a</a> <a href=\"tel:1\">c</a></p>\n");
/// # Ok::<(), pulldown_cmark::Error>(())
/// ```
///
/// # Errors
///
/// [`Error::OutOfMemory`] if memory is refused.
pub fn to_safe_html(text: &str, options: Options, schemes: &[&str]) -> Result<String, Error> {
    native::safe_html(text, options.library_bits(), &list_of(schemes)?)
}
