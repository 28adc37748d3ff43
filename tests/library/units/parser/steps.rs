//! The steps of the searches of spans.

use pulldown_cmark::{BasicEntities, Parser, Steps};
use std::alloc::{AllocError, Global};
use std::test::Fail;

/// The steps of the searches at the end of a walk, if they stayed within 128 steps per byte at each moment.
fn steps_of(alloc: Global, text: &str) -> Result<Option<Steps>, AllocError> {
    let most = (text.len() as u128) * 128;
    let mut parser = Parser::new(alloc, text, &BasicEntities)?;
    for _ in 0..u64::MAX {
        let steps = parser.steps();
        if steps.html + steps.openers + steps.closers > most {
            return Ok(None);
        }
        let Some(item) = parser.next() else {
            return Ok(Some(steps));
        };
        item?;
    }
    Ok(None)
}

/// `front`, followed by `count` copies of `part`.
fn many(alloc: Global, front: &str, part: &str, count: usize) -> Result<String, AllocError> {
    let mut text = String::new(alloc);
    text.push_str(front)?;
    for _ in 0..count {
        text.push_str(part)?;
    }
    Ok(text)
}

#[test]
fn nothing_is_sought_in_plain_words(rt: HostRuntime) -> Result<(), Fail> {
    let none = Some(Steps { html: 0, openers: 0, closers: 0 });
    assert_eq!(rt; steps_of(rt.alloc(), "")?, none);
    assert_eq!(rt; steps_of(rt.alloc(), "hello world")?, none);
    Ok(())
}

#[test]
fn each_search_is_counted(rt: HostRuntime) -> Result<(), Fail> {
    let Some(comments) = steps_of(rt.alloc(), "x <!-- a <!-- b\n")? else {
        return Ok(assert!(rt; false));
    };
    assert!(rt; comments.html >= 11 && comments.html <= 19);
    let Some(emphasis) = steps_of(rt.alloc(), "*a*")? else {
        return Ok(assert!(rt; false));
    };
    assert!(rt; emphasis.openers >= 1);
    let Some(code) = steps_of(rt.alloc(), "`a`")? else {
        return Ok(assert!(rt; false));
    };
    assert!(rt; code.closers >= 1);
    Ok(())
}

#[test]
fn searches_stay_few(rt: HostRuntime) -> Result<(), Fail> {
    for (front, part, count) in [
        ("", "*a_ ", 5_000),
        ("x ", "<!--", 1_000),
        ("", "`a ``", 1_000),
        ("", "*a **b ", 1_000),
    ] {
        let text = many(rt.alloc(), front, part, count)?;
        assert!(rt; steps_of(rt.alloc(), text.as_str())?.is_some());
    }
    Ok(())
}
