//! Tests of the table of link reference definitions that a parser returns.

use pulldown_cmark::{BasicEntities, Parser};
use std::alloc::{AllocError, Global};
use std::test::Fail;

const TEXT: &str = "[Foo  Bar]: /first\n[foo bar]: /second\n[\u{1e9e}]: /sharp\n\n[FOO BAR]\n";

/// Each label in the spelling of the table, and its destination, in one text.
fn spelled(alloc: Global, text: &str) -> Result<String, AllocError> {
    let parser = Parser::new(alloc, text, &BasicEntities)?;
    let mut all = String::new(alloc);
    for (label, definition) in parser.reference_definitions().iter() {
        all.push_str(label)?;
        all.push_str(" is ")?;
        all.push_str(definition.dest.as_str())?;
        all.push_str("; ")?;
    }
    Ok(all)
}

/// The destination of a label, or a text that says there is none.
fn destination(alloc: Global, text: &str, label: &str) -> Result<String, AllocError> {
    let parser = Parser::new(alloc, text, &BasicEntities)?;
    match parser.reference_definitions().get(label)? {
        Some(definition) => String::from_str(alloc, definition.dest.as_str()),
        None => String::from_str(alloc, "none"),
    }
}

#[test]
fn labels_are_spelled_as_first_defined(rt: HostRuntime) -> Result<(), Fail> {
    let all = spelled(rt.alloc(), TEXT)?;
    assert_eq!(rt; all.as_str(), "Foo Bar is /first; \u{1e9e} is /sharp; ");
    Ok(())
}

#[test]
fn short_labels_are_looked_up(rt: HostRuntime) -> Result<(), Fail> {
    let cases = [("", "none"), ("a", "none"), ("fOO bAR", "/first"), ("SS", "/sharp")];
    for (label, wanted) in cases {
        let found = destination(rt.alloc(), TEXT, label)?;
        assert_eq!(rt; found.as_str(), wanted, "of {label}");
    }
    Ok(())
}
