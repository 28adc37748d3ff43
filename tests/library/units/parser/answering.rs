//! The callback that answers from a table, and the definitions of a text as records.

use bitflags::Flags;
use cmark_flat::{Answer, Reply, append_question};
use cmark_flat_links::{AnswerTable, Answering, append_definitions};
use pulldown_cmark::{BasicEntities, Event, LinkType, Options, Parser, Tag};
use std::alloc::{AllocError, Global};
use std::test::Fail;

/// A reply that a link leads to this destination, without a title.
fn leads(start: u64, end: u64, dest_url: &str) -> Reply<'_> {
    let answer = Some(Answer {
        dest_url,
        title: "",
    });
    Reply { start, end, answer }
}

/// The destinations of a text's links with these replies, each followed by a space, and the records of its questions.
fn answered(
    alloc: Global,
    text: &str,
    replies: &[Reply<'_>],
) -> Result<(String, Vec<u8>), AllocError> {
    let table = AnswerTable::new(alloc, replies)?;
    let callback = Some(Answering::new(alloc, table));
    let options = Options::empty();
    let mut parser =
        Parser::new_with_broken_link_callback(alloc, text, options, &BasicEntities, callback)?;
    let mut links = String::new(alloc);
    while let Some(event) = parser.next() {
        if let Event::Start(Tag::Link { dest_url, .. }) = event? {
            links.push_str(dest_url.as_str())?;
            links.push(' ')?;
        }
    }
    let mut asked = Vec::new(alloc);
    if let Some(callback) = parser.callback() {
        asked.extend_from_slice(callback.asked()?)?;
    }
    Ok((links, asked))
}

#[test]
fn answers_by_range_and_keeps_its_questions(rt: HostRuntime) -> Result<(), Fail> {
    let alloc = rt.alloc();
    let no_link = Reply {
        start: 0,
        end: 3,
        answer: None,
    };
    let replies = [
        leads(4, 10, "/first"),
        leads(4, 10, "/second"),
        no_link,
        leads(0, 3, "/late"),
        leads(11, 13, "/other"),
    ];
    let (links, asked) = answered(alloc, "[a] [b][c] [d]", &replies)?;
    assert_eq!(rt; links.as_str(), "/first ");
    let mut wanted = Vec::new(alloc);
    append_question(&mut wanted, LinkType::Shortcut, "a", &(0..3))?;
    append_question(&mut wanted, LinkType::Reference, "c", &(4..10))?;
    append_question(&mut wanted, LinkType::Shortcut, "d", &(11..14))?;
    assert!(rt; asked.as_slice() == wanted.as_slice());
    Ok(())
}

#[test]
fn asks_nothing_where_all_is_defined(rt: HostRuntime) -> Result<(), Fail> {
    let alloc = rt.alloc();
    let (links, asked) = answered(alloc, "[a]\n\n[A]: /x", &[leads(0, 3, "/y")])?;
    assert_eq!(rt; links.as_str(), "/x ");
    assert!(rt; asked.is_empty());
    Ok(())
}

#[test]
fn writes_the_first_definition_of_each_label(rt: HostRuntime) -> Result<(), Fail> {
    let alloc = rt.alloc();
    let text = "[b]: /u 'ti'\n[A]: <x>\n\n> [a]: /no\n> [ C  d ]: y";
    let parser = Parser::new(alloc, text, &BasicEntities)?;
    let mut out = Vec::new(alloc);
    append_definitions(&mut out, parser.reference_definitions())?;
    drop(parser);
    let mut wanted = Vec::new(alloc);
    cmark_flat::append_definition(&mut wanted, "A", "x", None, &(13..21))?;
    cmark_flat::append_definition(&mut wanted, "b", "/u", Some("ti"), &(0..12))?;
    cmark_flat::append_definition(&mut wanted, "C d", "y", None, &(36..47))?;
    assert!(rt; out.as_slice() == wanted.as_slice());
    Ok(())
}
