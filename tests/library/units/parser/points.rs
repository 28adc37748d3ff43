//! Definitions and ranges at each point of a reading.

use pulldown_cmark::{BasicEntities, Parser, RefDefs};
use std::alloc::AllocError;
use std::test::Fail;

/// Whether a label is defined with this destination, title and range.
fn is_defined(
    definitions: &RefDefs<'_>,
    label: &str,
    dest: &str,
    title: Option<&str>,
    range: (usize, usize),
) -> Result<bool, AllocError> {
    let Some(def) = definitions.get(label)? else {
        return Ok(false);
    };
    let has_title = def.title.as_ref().map(|title| title.as_str()) == title;
    Ok(has_title && def.dest.as_str() == dest && (def.span.start, def.span.end) == range)
}

/// Whether the label `foo` has the first of its two definitions.
fn has_the_first(definitions: &RefDefs<'_>, label: &str) -> Result<bool, AllocError> {
    is_defined(definitions, label, "/a", Some("b"), (0, 13))
}

#[test]
fn keeps_the_definitions(rt: HostRuntime) -> Result<(), Fail> {
    let text = "[Foo]: /a 'b'\n[foo]: /c\n\nd\n";
    let mut parser = Parser::new(rt.alloc(), text, &BasicEntities)?;
    assert!(rt; has_the_first(parser.reference_definitions(), "FOO")?);
    for _ in 0..4 {
        let _given = parser.next();
    }
    assert!(rt; has_the_first(parser.reference_definitions(), "FOO")?);
    assert!(rt; parser.reference_definitions().get("d")?.is_none());
    let iter = parser.into_offset_iter();
    assert!(rt; has_the_first(iter.reference_definitions(), "foo")?);
    Ok(())
}

#[test]
fn finds_definitions_over_lines(rt: HostRuntime) -> Result<(), Fail> {
    let quote = "> [Bar]:\n> </u>\n> [baz]: x\n> text\n";
    let item = "- [two]: z\r\n  't\r\n  u'\r\n";
    let text = format!(in rt.alloc(); "[foo]: /url\n\"title\"\nbar\n\n{quote}\n{item}")?;
    let parser = Parser::new(rt.alloc(), text.as_str(), &BasicEntities)?;
    let definitions = parser.reference_definitions();
    assert!(rt; is_defined(definitions, "foo", "/url", Some("title"), (0, 19))?);
    assert!(rt; is_defined(definitions, "bar", "/u", None, (27, 40))?);
    assert!(rt; is_defined(definitions, "baz", "x", None, (43, 51))?);
    assert!(rt; is_defined(definitions, "two", "z", Some("t\nu"), (62, 82))?);
    Ok(())
}

#[test]
fn definitions_are_there_at_every_point(rt: HostRuntime) -> Result<(), Fail> {
    let text =
        "[a B c]: http://example.com\n[another]: https://google.com\n\ntext\n\n[final ONE]: http://wikipedia.org\n";
    let mut parser = Parser::new(rt.alloc(), text, &BasicEntities)?;
    let definitions = parser.reference_definitions();
    assert!(rt; is_defined(definitions, "a b c", "http://example.com", None, (0, 27))?);
    drop(parser.next());
    let definitions = parser.reference_definitions();
    assert!(rt; is_defined(definitions, "final one", "http://wikipedia.org", None, (65, 98))?);
    assert!(rt; definitions.get("nope")?.is_none());
    Ok(())
}

#[test]
fn ranges_continue_after_four_events(rt: HostRuntime) -> Result<(), Fail> {
    let mut parser = Parser::new(rt.alloc(), "# a\nb\nc\n", &BasicEntities)?;
    for _ in 0..4 {
        let _given = parser.next();
    }
    let mut iter = parser.into_offset_iter();
    let wanted = [Some((4, 5)), Some((5, 6)), Some((6, 7)), Some((4, 8)), None];
    for range in wanted {
        let given = match iter.next() {
            Some(item) => {
                let (_event, range) = item?;
                Some((range.start, range.end))
            }
            None => None,
        };
        assert_eq!(rt; given, range);
    }
    Ok(())
}
