//! Reference expansion limits that the caller sets.

ghost use Rattle.std.specs.Prelude.{◌≡◌};

use bitflags::Flags;
use pulldown_cmark::html::{push_html, to_html, to_html_within};
use pulldown_cmark::{
    BasicEntities, BrokenLink, BrokenLinkCallback, CowStr, DefaultBrokenLinkCallback, Options,
    Parser,
};
use std::alloc::{AllocError, Global};
use std::test::Fail;

/// Counts the questions, and gives the same destination for each.
#[derive(Drop)]
struct Counting<'q> {
    asked: &'q mut usize,
}

impl<'input> BrokenLinkCallback<'input> for Counting<'_> {
    ghost answers = { λ before link answer after. after ≡ after };

    fn handle_broken_link(
        &mut self,
        _link: BrokenLink<'input>,
    ) -> Option<(CowStr<'input>, CowStr<'input>)> {
        *self.asked = self.asked.saturating_add(1);
        Some((CowStr::Borrowed("u"), CowStr::Borrowed("")))
    }
}

/// The HTML of a text within a limit.
fn within(
    alloc: Global,
    text: &str,
    options: Options,
    limit: usize,
) -> Result<String, AllocError> {
    let none: Option<DefaultBrokenLinkCallback> = None;
    let parser =
        Parser::new_with_expansion_limit(alloc, text, options, &BasicEntities, none, limit)?;
    let mut html = String::new(alloc);
    push_html(&mut html, parser)?;
    Ok(html)
}

#[test]
fn nothing_is_looked_up_where_nothing_is_left(rt: HostRuntime) -> Result<(), Fail> {
    let html = within(rt.alloc(), "[A]\n\n[a]: /1\n", Options::empty(), 0)?;
    assert_eq!(rt; html.as_str(), "<p>[A]</p>\n");
    Ok(())
}

#[test]
fn one_reference_may_overspend(rt: HostRuntime) -> Result<(), Fail> {
    let html = within(rt.alloc(), "[x] [x]\n\n[x]: /u", Options::empty(), 1)?;
    assert_eq!(rt; html.as_str(), "<p><a href=\"/u\">x</a> [x]</p>\n");
    Ok(())
}

#[test]
fn footnotes_take_nothing_of_the_limit(rt: HostRuntime) -> Result<(), Fail> {
    let html = within(rt.alloc(), "a[^1]\n\n[^1]: b\n", Options::ENABLE_FOOTNOTES, 0)?;
    assert_eq!(rt; html.as_str(), "<p>a<sup class=\"footnote-reference\"><a href=\"#1\">1</a></sup></p>\n<div class=\"footnote-definition\" id=\"1\"><sup class=\"footnote-definition-label\">1</sup>\n<p>b</p>\n</div>\n");
    Ok(())
}

#[test]
fn nothing_is_asked_where_nothing_is_left(rt: HostRuntime) -> Result<(), Fail> {
    for (limit, wanted, count) in [
        (0, "<p>[a] [b]</p>\n", 0),
        (1, "<p><a href=\"u\">a</a> [b]</p>\n", 1),
        (2, "<p><a href=\"u\">a</a> <a href=\"u\">b</a></p>\n", 2),
    ] {
        let mut asked = 0;
        let callback = Some(Counting { asked: &mut asked });
        let parser = Parser::new_with_expansion_limit(
            rt.alloc(),
            "[a] [b]",
            Options::empty(),
            &BasicEntities,
            callback,
            limit,
        )?;
        let mut html = String::new(rt.alloc());
        push_html(&mut html, parser)?;
        assert_eq!(rt; html.as_str(), wanted);
        assert_eq!(rt; asked, count);
    }
    Ok(())
}

#[test]
fn html_keeps_to_the_limit(rt: HostRuntime) -> Result<(), Fail> {
    let twice = "[x] [x]\n\n[x]: /u";
    let (none, wikilinks) = (Options::empty(), Options::ENABLE_WIKILINKS);
    for (text, options, limit, wanted) in [
        ("[A]\n\n[a]: /1\n", none, 0, "<p>[A]</p>\n"),
        (twice, none, 1, "<p><a href=\"/u\">x</a> [x]</p>\n"),
        (twice, none, 2, "<p><a href=\"/u\">x</a> [x]</p>\n"),
        (twice, none, 3, "<p><a href=\"/u\">x</a> <a href=\"/u\">x</a></p>\n"),
        ("[x](/u) [[y]]", wikilinks, 0, "<p><a href=\"/u\">x</a> <a href=\"y\">y</a></p>\n"),
    ] {
        let html = to_html_within(rt.alloc(), text, options, &BasicEntities, limit)?;
        assert_eq!(rt; html.as_str(), wanted, "{limit} bytes");
        assert_eq!(rt; within(rt.alloc(), text, options, limit)?.as_str(), wanted, "{limit} bytes");
    }
    Ok(())
}

#[test]
fn a_short_text_has_the_least_limit(rt: HostRuntime) -> Result<(), Fail> {
    let mut text = String::new(rt.alloc());
    text.push_str("[x]: /")?;
    for _ in 0..60_000 {
        text.push_str("u")?;
    }
    text.push_str("\n\n[x] [x] [x]\n")?;
    let usual = to_html(rt.alloc(), text.as_str(), Options::empty(), &BasicEntities)?;
    let least = to_html_within(rt.alloc(), text.as_str(), Options::empty(), &BasicEntities, 100_000)?;
    let less = to_html_within(rt.alloc(), text.as_str(), Options::empty(), &BasicEntities, 60_001)?;
    assert_eq!(rt; usual.as_str(), least.as_str());
    assert!(rt; usual.as_str().ends_with("</a> [x]</p>\n"));
    assert!(rt; less.as_str().ends_with("</a> [x] [x]</p>\n"));
    Ok(())
}
