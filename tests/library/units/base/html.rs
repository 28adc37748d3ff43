//! From events to HTML, for iterators that are not parsers. The HTML of each event is computed from its definition (`HtmlSamples` of
//! `cmark_grammar`), and `push_html` gives exactly that value. These tests show its effect on the string.

use cmark_html::push_html;
use cmark_text::{CowStr, Event, LinkType, Tag, TagEnd};
use std::alloc::AllocError;
use std::test::Fail;

/// A text that is borrowed.
fn text_of(text: &str) -> CowStr<'_> {
    CowStr::Borrowed(text)
}

/// An image's start.
fn image<'a>(dest_url: &'a str, title: &'a str) -> Event<'a> {
    Event::Start(Tag::Image {
        link_type: LinkType::Inline,
        dest_url: text_of(dest_url),
        title: text_of(title),
        id: text_of(""),
    })
}

#[test]
fn writes_after_the_old_text(rt: HostRuntime) -> Result<(), Fail> {
    let mut html = String::from_str(rt.alloc(), "x")?;
    let items = [
        Ok(Event::Rule),
        Ok(image("a b", "<")),
        Ok(Event::Text(text_of("c"))),
        Ok(Event::End(TagEnd::Image)),
        Ok(Event::Rule),
    ];
    push_html(&mut html, items.into_iter())?;
    assert_eq!(rt;
        html.as_str(),
        "x<hr />\n<img src=\"a%20b\" alt=\"c\" title=\"&lt;\" />\n<hr />\n"
    );
    Ok(())
}

#[test]
fn leaves_an_image_open_at_an_error(rt: HostRuntime) -> Result<(), Fail> {
    let mut html = String::new(rt.alloc());
    let items = [
        Ok(image("d", "t")),
        Ok(Event::Text(text_of("a"))),
        Err(AllocError),
        Ok(Event::End(TagEnd::Image)),
    ];
    assert!(rt; push_html(&mut html, items.into_iter()).is_err());
    assert_eq!(rt; html.as_str(), "<img src=\"d\" alt=\"a");
    Ok(())
}

#[test]
fn stops_at_an_error(rt: HostRuntime) -> Result<(), Fail> {
    let mut html = String::from_str(rt.alloc(), "old ")?;
    let items = [
        Ok(Event::Start(Tag::Paragraph)),
        Ok(Event::Text(text_of("a"))),
        Err(AllocError),
        Ok(Event::End(TagEnd::Paragraph)),
    ];
    assert!(rt; push_html(&mut html, items.into_iter()).is_err());
    assert_eq!(rt; html.as_str(), "old <p>a");
    Ok(())
}
