//! Tests of link reference definitions, with ample memory. Most examples are of CommonMark 4.7.

use cmark_link_definitions::{Definition, is_settled, link_definition, scan_definition};
use cmark_text::{BasicEntities, CowStr};
use std::test::Fail;

/// A definition's label, destination and title, and its end.
fn parts<'a>(found: Definition<'a>) -> (&'a str, &'a str, Option<&'a str>, usize) {
    (found.label, found.destination, found.title, found.end)
}

#[test]
fn a_definition_with_a_title(rt: HostRuntime) -> Result<(), Fail> {
    let found = scan_definition("[foo]: /url \"title\"\nbar");
    let wanted = ("foo", "/url", Some("title"), 19);
    assert_eq!(rt; found.map(parts), Some(wanted));
    Ok(())
}

#[test]
fn a_definition_over_lines(rt: HostRuntime) -> Result<(), Fail> {
    let found = scan_definition("[Foo*bar\\]]:\r\n<my_(url)>\r\n'title (with parens)'\r\n");
    let wanted = ("Foo*bar\\]", "my_(url)", Some("title (with parens)"), 47);
    assert_eq!(rt; found.map(parts), Some(wanted));
    Ok(())
}

#[test]
fn a_definition_without_a_title(rt: HostRuntime) -> Result<(), Fail> {
    let found = scan_definition("[foo]: /url\n\"title\" ok");
    let wanted = ("foo", "/url", None, 11);
    assert_eq!(rt; found.map(parts), Some(wanted));
    Ok(())
}

#[test]
fn an_empty_destination_in_brackets(rt: HostRuntime) -> Result<(), Fail> {
    let found = scan_definition("[\u{e9}]: <>");
    let wanted = ("\u{e9}", "", None, 8);
    assert_eq!(rt; found.map(parts), Some(wanted));
    Ok(())
}

#[test]
fn no_definitions(rt: HostRuntime) -> Result<(), Fail> {
    assert!(rt; scan_definition("[foo]:\n").is_none());
    assert!(rt; scan_definition("[foo]: <bar>(baz)").is_none());
    assert!(rt; scan_definition("[foo]: /url \"title\" ok").is_none());
    assert!(rt; scan_definition("[\n ]: /uri").is_none());
    assert!(rt; scan_definition("[foo").is_none());
    assert!(rt; scan_definition("foo]: /url").is_none());
    Ok(())
}

#[test]
fn a_definition_for_a_table(rt: HostRuntime) -> Result<(), Fail> {
    let written = Definition {
        label: " Foo\n bar ",
        destination: "/url\\bar\\*baz&amp;",
        title: Some("foo\\\"bar\r\n  \\baz&copy;"),
        end: 40,
    };
    let (label, def) = link_definition(rt.alloc(), &written, 3..43, &BasicEntities)?;
    assert_eq!(rt; label.as_str(), "Foo bar");
    assert_eq!(rt; def.dest.as_str(), "/url\\bar*baz&");
    let title = def.title.ok_or("no title")?;
    assert_eq!(rt; title.as_str(), "foo\"bar\n\\baz\u{a9}");
    assert_eq!(rt; def.span.start, 3);
    assert_eq!(rt; def.span.end, 43);
    Ok(())
}

#[test]
fn what_more_text_may_change(rt: HostRuntime) -> Result<(), Fail> {
    assert!(rt; is_settled("[foo]: /url\n[bar]: /url"));
    assert!(rt; is_settled("[foo]: /url 'title'\nbar"));
    assert!(rt; is_settled("[foo]: /url\n\"title\" bar"));
    assert!(rt; is_settled("[foo](/url)"));
    assert!(rt; !is_settled("[foo]: /url"));
    assert!(rt; !is_settled("[foo]: /url 'title'"));
    assert!(rt; !is_settled("[foo]: /url\n'title"));
    assert!(rt; !is_settled("[foo]:"));
    assert!(rt; !is_settled("[foo"));
    Ok(())
}
