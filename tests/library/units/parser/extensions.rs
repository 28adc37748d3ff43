//! Spans of options, and the reference expansion limit.

use bitflags::Flags;
use pulldown_cmark::html::push_html;
use pulldown_cmark::{BasicEntities, Options, Parser};
use std::alloc::{AllocError, Global};
use std::test::Fail;

/// The HTML of a text that is read with these options.
fn html_with(alloc: Global, text: &str, options: Options) -> Result<String, AllocError> {
    let parser = Parser::new_ext(alloc, text, options, &BasicEntities)?;
    let mut html = String::new(alloc);
    push_html(&mut html, parser)?;
    Ok(html)
}

#[test]
fn renders_by_options(rt: HostRuntime) -> Result<(), Fail> {
    for (options, text, html) in [
        (
            Options::ENABLE_SUPERSCRIPT.union(Options::ENABLE_STRIKETHROUGH),
            "^a b~ c^",
            "<p>^a b~ c^</p>\n",
        ),
        (
            Options::ENABLE_SUBSCRIPT,
            "a ~~b *c* d~~ e",
            "<p>a ~~b *c* d~~ e</p>\n",
        ),
        (
            Options::ENABLE_STRIKETHROUGH,
            "~~a~~",
            "<p><del>a</del></p>\n",
        ),
        (
            Options::ENABLE_SMART_PUNCTUATION,
            "\"a\" -- 'b'...",
            "<p>\u{201c}a\u{201d} \u{2013} \u{2018}b\u{2019}\u{2026}</p>\n",
        ),
        (
            Options::ENABLE_SMART_PUNCTUATION,
            "a -- b --- c ---- d ----- e",
            "<p>a \u{2013} b \u{2014} c \u{2013}\u{2013} d \u{2014}\u{2013} e</p>\n",
        ),
    ] {
        let found = html_with(rt.alloc(), text, options)?;
        assert_eq!(rt; found.as_str(), html, "of {text:?}");
    }
    Ok(())
}

#[test]
fn references_expand_up_to_a_limit(rt: HostRuntime) -> Result<(), Fail> {
    let url = "u".repeat(rt.alloc(), 60_000)?;
    let text = format!(in rt.alloc(); "[x] [x] [x]\n\n[x]: {url}")?;
    let html = html_with(rt.alloc(), text.as_str(), Options::empty())?;
    let wanted = format!(in rt.alloc();
        "<p><a href=\"{url}\">x</a> <a href=\"{url}\">x</a> [x]</p>\n"
    )?;
    assert!(rt; html.as_str() == wanted.as_str());
    Ok(())
}
