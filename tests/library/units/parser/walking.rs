//! A walk that continues with ranges, and merged texts with their ranges.

use pulldown_cmark::{BasicEntities, Event, Parser, TextMergeWithOffset};
use std::test::Fail;

#[test]
fn three_events_later_the_ranges_are_those_of_the_rest(rt: HostRuntime) -> Result<(), Fail> {
    let mut parser = Parser::new(rt.alloc(), "a [b](c) d", &BasicEntities)?;
    for _ in 0..3 {
        drop(parser.next());
    }
    let mut ranges = Vec::new(rt.alloc());
    for item in parser.into_offset_iter() {
        let (_event, range) = item?;
        ranges.push((range.start, range.end))?;
    }
    assert_eq!(rt;
        ranges.as_slice(),
        [(3, 4), (2, 8), (8, 10), (0, 10)].as_slice()
    );
    Ok(())
}

#[test]
fn the_lines_of_code_are_one_merged_text(rt: HostRuntime) -> Result<(), Fail> {
    let text = "\n    first line\n    second line\n";
    let parser = Parser::new(rt.alloc(), text, &BasicEntities)?;
    let mut texts = Vec::new(rt.alloc());
    for item in TextMergeWithOffset::new(rt.alloc(), parser.into_offset_iter()) {
        let (event, range) = item?;
        if matches!(event, Event::Text(_)) {
            texts.push((range.start, range.end))?;
        }
    }
    assert_eq!(rt; texts.as_slice(), [(5, 32)].as_slice());
    Ok(())
}
