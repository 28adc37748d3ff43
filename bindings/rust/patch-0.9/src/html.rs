//! HTML of events.

use crate::Event;
use std::io;

/// Appends the HTML of events to a string.
pub fn push_html<'a, I>(s: &mut String, iter: I)
where
    I: Iterator<Item = Event<'a>>,
{
    proved::html::push_html(s, iter.map(Event::proved));
}

/// Writes the HTML of events to a stream.
pub fn write_html<'a, I, W>(writer: W, iter: I) -> io::Result<()>
where
    I: Iterator<Item = Event<'a>>,
    W: io::Write,
{
    proved::html::write_html_io(writer, iter.map(Event::proved))
}
