//! Safe HTML of whole texts.

use bitflags::Flags;
use pulldown_cmark::html::{push_html, to_safe_html};
use pulldown_cmark::{BasicEntities, Event, Options, Parser, SafeEvents};
use std::alloc::{AllocError, Global};
use std::test::Fail;

/// The safe HTML of a text with all options.
fn safe(alloc: Global, text: &str, further: &str) -> Result<String, AllocError> {
    to_safe_html(alloc, text, Options::all(), &BasicEntities, further)
}

#[test]
fn html_is_text(rt: HostRuntime) -> Result<(), Fail> {
    let html = safe(rt.alloc(), "a <script> b\n\n<script>\nc\n", "")?;
    assert_eq!(rt; html.as_str(), "<p>a &lt;script&gt; b</p>\n<p>&lt;script&gt;\nc\n</p>\n");
    Ok(())
}

#[test]
fn schemes_are_told_in_any_spelling(rt: HostRuntime) -> Result<(), Fail> {
    for address in [
        "javascript:a",
        "JaVaScRiPt:a",
        "java&#9;script:a",
        "&#106;avascript:a",
        "<java\tscript:a>",
        "< javascript:a>",
        "vbscript:a",
        "data:text/html,a",
        "file:///a",
        "x:a",
    ] {
        let mut text = String::from_str(rt.alloc(), "[b](")?;
        text.push_str(address)?;
        text.push_str(")")?;
        let html = safe(rt.alloc(), text.as_str(), "javascript data file JAVASCRIPT")?;
        assert!(rt; !html.as_str().as_bytes().starts_with(b"<p><a href=\"j"));
        assert!(rt; !html.as_str().as_bytes().starts_with(b"<p><a href=\"x"));
    }
    Ok(())
}

#[test]
fn a_name_that_is_not_known_is_no_colon(rt: HostRuntime) -> Result<(), Fail> {
    let html = safe(rt.alloc(), "[b](javascript&colon;a)", "")?;
    assert_eq!(rt; html.as_str(), "<p><a href=\"javascript&amp;colon;a\">b</a></p>\n");
    Ok(())
}

#[test]
fn relative_and_allowed_addresses_stay(rt: HostRuntime) -> Result<(), Fail> {
    let html = safe(rt.alloc(), "[a](/b:c) [a](#d:e) [a](HTTPS:f) [a](mailto:g) [a](tel:1) [a](x)", "tel")?;
    assert_eq!(rt;
        html.as_str(),
        "<p><a href=\"/b:c\">a</a> <a href=\"#d:e\">a</a> <a href=\"HTTPS:f\">a</a> <a href=\"mailto:g\">a</a> <a href=\"tel:1\">a</a> <a href=\"x\">a</a></p>\n"
    );
    Ok(())
}

#[test]
fn headings_have_an_anchor_alone(rt: HostRuntime) -> Result<(), Fail> {
    let html = safe(rt.alloc(), "# a {#b .c onclick=d}\n", "")?;
    assert_eq!(rt; html.as_str(), "<h1 id=\"user-content-b\">a</h1>\n");
    Ok(())
}

#[test]
fn a_code_block_has_one_class(rt: HostRuntime) -> Result<(), Fail> {
    let html = safe(rt.alloc(), "```a\tb c\n```\n\n```d&#10;e\n```\n\n```&#9;f\n```\n", "")?;
    assert_eq!(rt;
        html.as_str(),
        "<pre><code class=\"language-a\"></code></pre>\n<pre><code class=\"language-d\"></code></pre>\n<pre><code></code></pre>\n"
    );
    Ok(())
}

#[test]
fn names_of_footnotes_have_a_prefix(rt: HostRuntime) -> Result<(), Fail> {
    let html = safe(rt.alloc(), "a[^b]\n\n[^b]: c\n", "")?;
    assert_eq!(rt;
        html.as_str(),
        "<p>a<sup class=\"footnote-reference\"><a href=\"#user-content-b\">1</a></sup></p>\n<div class=\"footnote-definition\" id=\"user-content-b\"><sup class=\"footnote-definition-label\">1</sup>\n<p>c</p>\n</div>\n"
    );
    Ok(())
}

#[test]
fn safe_events_have_the_same_ranges(rt: HostRuntime) -> Result<(), Fail> {
    let parser = Parser::new(rt.alloc(), "<b>", &BasicEntities)?;
    let mut texts = 0_usize;
    for item in SafeEvents::new(rt.alloc(), "", parser.into_offset_iter()) {
        let (event, range) = item?;
        if let Event::Text(text) = event {
            assert_eq!(rt; text.as_str(), "<b>");
            assert_eq!(rt; range.start, 0);
            assert_eq!(rt; range.end, 3);
            texts = texts.saturating_add(1);
        }
    }
    assert_eq!(rt; texts, 1);
    Ok(())
}

#[test]
fn safe_events_and_to_safe_html_agree(rt: HostRuntime) -> Result<(), Fail> {
    let text = "# a\n\n<div>\n*b*\n\n![c](javascript:d \"e\") <f@g.h>\n";
    let parser = Parser::new_ext(rt.alloc(), text, Options::all(), &BasicEntities)?;
    let mut html = String::new(rt.alloc());
    push_html(&mut html, SafeEvents::new(rt.alloc(), "", parser))?;
    assert_eq!(rt; html.as_str(), safe(rt.alloc(), text, "")?.as_str());
    Ok(())
}
