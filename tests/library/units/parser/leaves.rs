//! Which texts of leaves are parts of the source.

use pulldown_cmark::{BasicEntities, CowStr, Event, Parser};
use std::alloc::AllocError;
use std::test::Fail;

/// For inline HTML, whether it is a part of the source.
fn is_part(item: &Result<Event<'_>, AllocError>) -> Option<bool> {
    match item {
        Ok(Event::InlineHtml(html)) => Some(matches!(html, CowStr::Borrowed(_))),
        _ => None,
    }
}

#[test]
fn lends_html_of_the_source(rt: HostRuntime) -> Result<(), Fail> {
    for (text, is_lent) in [
        ("> x <!A\n> b>", true),
        ("> x <!-- a\n> b -->", true),
        ("x <!-- a\n   b -->", true),
        ("x <a\n   b>", true),
        ("> x <a\n>   b>", false),
    ] {
        let mut parts = 0usize;
        let mut others = 0usize;
        for item in Parser::new(rt.alloc(), text, &BasicEntities)? {
            match is_part(&item) {
                Some(true) => parts = parts.saturating_add(1),
                Some(false) => others = others.saturating_add(1),
                None => {}
            }
            drop(item);
        }
        let wanted = if is_lent { (1, 0) } else { (0, 1) };
        assert_eq!(rt; (parts, others), wanted, "of {text:?}");
    }
    Ok(())
}
