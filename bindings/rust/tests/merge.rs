//! Merged texts, on the events of pulldown-cmark's own tests and others.

use pulldown_cmark::{Event, Parser, TextMergeStream, TextMergeWithOffset};

const INDENTED: &str = "\n    first line\n    second line\n";

#[test]
fn lines_of_a_code_block_are_merged() {
    let texts: Vec<_> = TextMergeStream::new(Parser::new(INDENTED))
        .filter(|event| matches!(event, Event::Text(_)))
        .collect();
    assert_eq!(texts, [Event::Text("first line\nsecond line\n".into())]);
}

#[test]
fn merged_texts_have_the_range_from_first_to_last() {
    let texts: Vec<_> = TextMergeWithOffset::new(Parser::new(INDENTED).into_offset_iter())
        .filter(|(event, _)| matches!(event, Event::Text(_)))
        .collect();
    let merged = Event::Text("first line\nsecond line\n".into());
    assert_eq!(texts, [(merged, 5..32)]);
}

#[test]
fn empty_texts_are_dropped_if_they_are_merged() {
    let text = |text: &'static str| Event::Text(text.into());
    let merged = |events: Vec<Event<'static>>| -> Vec<_> {
        TextMergeStream::new(events.into_iter()).collect()
    };
    assert_eq!(
        merged(vec![Event::Rule, text(""), text(""), Event::Rule]),
        [Event::Rule, Event::Rule]
    );
    assert_eq!(merged(vec![text(""), text("")]), []);
    assert_eq!(merged(vec![text(""), Event::Rule]), [text(""), Event::Rule]);
    assert_eq!(
        merged(vec![text("a"), text(""), text("b"), Event::Rule, text("c")]),
        [text("ab"), Event::Rule, text("c")]
    );
}

#[test]
fn an_iterator_is_not_asked_after_its_end() {
    let mut calls = 0;
    let once = std::iter::from_fn(|| {
        calls += 1;
        assert!(calls < 3);
        (calls == 1).then_some(Event::Text("a".into()))
    });
    let mut merged = TextMergeStream::new(once);
    assert_eq!(merged.next(), Some(Event::Text("a".into())));
    assert_eq!((merged.next(), merged.next()), (None, None));
}
