//! Callbacks for references without a definition.

ghost use Rattle.std.specs.Prelude.{◌≡◌};

use bitflags::Flags;
use pulldown_cmark::html::push_html;
use pulldown_cmark::{
    BasicEntities, BrokenLink, BrokenLinkCallback, CowStr, Event, FnCallback, LinkType, Options,
    Parser, Tag,
};
use std::alloc::{AllocError, Global};
use std::collections::BTreeMap;
use std::test::Fail;

/// The range and the kind of a question.
type Asked = (usize, usize, LinkType);

/// Records each question, and gives for each the same destination and title, or nothing.
#[derive(Drop)]
struct Noting<'q> {
    asked: &'q mut Vec<Asked>,
    answer: Option<(&'static str, &'static str)>,
}

impl<'input> BrokenLinkCallback<'input> for Noting<'_> {
    ghost answers = { λ before link answer after. after ≡ after };

    fn handle_broken_link(
        &mut self,
        link: BrokenLink<'input>,
    ) -> Option<(CowStr<'input>, CowStr<'input>)> {
        let range = link.span;
        if self
            .asked
            .push((range.start, range.end, link.link_type))
            .is_err()
        {
            return None;
        }
        let (url, title) = self.answer?;
        Some((CowStr::Borrowed(url), CowStr::Borrowed(title)))
    }
}

/// The HTML of a text with these answers, and the questions that were put.
fn answered(
    alloc: Global,
    text: &str,
    answer: Option<(&'static str, &'static str)>,
    asked: &mut Vec<Asked>,
) -> Result<String, AllocError> {
    let callback = Some(Noting { asked, answer });
    let options = Options::empty();
    let parser = Parser::new_with_broken_link_callback(
        alloc,
        text,
        options,
        &BasicEntities,
        callback,
    )?;
    let mut html = String::new(alloc);
    push_html(&mut html, parser)?;
    Ok(html)
}

#[test]
fn asks_for_both_labels(rt: HostRuntime) -> Result<(), Fail> {
    let mut asked = Vec::new(rt.alloc());
    let html = answered(rt.alloc(), "[a][b][c]", None, &mut asked)?;
    assert_eq!(rt; html.as_str(), "<p>[a][b][c]</p>\n");
    assert_eq!(rt;
        asked.as_slice(),
        [(0, 6, LinkType::Reference), (3, 9, LinkType::Reference)].as_slice()
    );
    Ok(())
}

#[test]
fn asks_once_for_each(rt: HostRuntime) -> Result<(), Fail> {
    for (text, count) in [
        ("See also [`g()`][crate::g].", 1),
        ("[brokenlink1] some other node [brokenlink2]", 2),
        ("[a](b) `[c]` \\[d]", 0),
    ] {
        let mut asked = Vec::new(rt.alloc());
        answered(rt.alloc(), text, None, &mut asked)?;
        assert_eq!(rt; asked.len(), count, "of {text:?}");
    }
    Ok(())
}

#[test]
fn takes_the_answers(rt: HostRuntime) -> Result<(), Fail> {
    let mut asked = Vec::new(rt.alloc());
    let answer = Some(("http://example.com", "my example website"));
    let text = "Hello world, check out [my website][].";
    let html = answered(rt.alloc(), text, answer, &mut asked)?;
    assert_eq!(rt;
        html.as_str(),
        "<p>Hello world, check out <a href=\"http://example.com\" title=\"my example website\">my website</a>.</p>\n"
    );
    assert_eq!(rt;
        asked.as_slice(),
        [(23, 35, LinkType::Collapsed)].as_slice()
    );
    Ok(())
}

/// Whether a question is this one.
fn is_asked(link: &BrokenLink<'_>, label: &str, start: usize, end: usize) -> bool {
    link.reference.as_str() == label
        && link.link_type == LinkType::Reference
        && link.span.start == start
        && link.span.end == end
}

/// Gives a destination for the question that it waits for, and records that it was put.
#[derive(Drop)]
struct World<'q> {
    questions: &'q mut usize,
}

impl<'input> BrokenLinkCallback<'input> for World<'_> {
    ghost answers = { λ before link answer after. after ≡ after };

    fn handle_broken_link(
        &mut self,
        link: BrokenLink<'input>,
    ) -> Option<(CowStr<'input>, CowStr<'input>)> {
        if !is_asked(&link, "world", 24, 38) {
            return None;
        }
        *self.questions += 1;
        Some((CowStr::Borrowed("YOLO"), CowStr::Borrowed("SWAG")))
    }
}

/// Whether an event is the start of a link that only the callback resolved, with these texts.
fn starts_unknown(event: &Event<'_>, url: &str, words: &str, label: &str) -> bool {
    match event {
        Event::Start(Tag::Link {
            link_type,
            dest_url,
            title,
            id,
        }) => {
            *link_type == LinkType::ReferenceUnknown
                && dest_url.as_str() == url
                && title.as_str() == words
                && id.as_str() == label
        }
        _ => false,
    }
}

#[test]
fn an_answer_makes_a_link_of_an_unknown_reference(rt: HostRuntime) -> Result<(), Fail> {
    let mut questions = 0usize;
    let text = "This is a link w/o def: [hello][world]";
    let callback = Some(World {
        questions: &mut questions,
    });
    let parser = Parser::new_with_broken_link_callback(
        rt.alloc(),
        text,
        Options::empty(),
        &BasicEntities,
        callback,
    )?;
    let mut links = 0usize;
    for event in parser {
        if starts_unknown(&event?, "YOLO", "SWAG", "world") {
            links += 1;
        }
    }
    assert_eq!(rt; (questions, links), (1, 1));
    Ok(())
}

#[test]
fn a_closure_counts_the_questions(rt: HostRuntime) -> Result<(), Fail> {
    let mut asked = 0usize;
    let callback = FnCallback::new(|_link| {
        asked = asked.saturating_add(1);
        Some((CowStr::Borrowed("/page"), CowStr::Borrowed("")))
    });
    let parser = Parser::new_with_broken_link_callback(
        rt.alloc(),
        "[a] [b][c] [d](e)",
        Options::empty(),
        &BasicEntities,
        Some(callback),
    )?;
    let mut html = String::new(rt.alloc());
    push_html(&mut html, parser)?;
    assert_eq!(rt; asked, 2);
    assert_eq!(rt;
        html.as_str(),
        "<p><a href=\"/page\">a</a> <a href=\"/page\">b</a> <a href=\"e\">d</a></p>\n"
    );
    Ok(())
}

#[test]
fn a_closure_looks_references_up_in_a_map(rt: HostRuntime) -> Result<(), Fail> {
    let mut pages = BTreeMap::new(rt.alloc());
    drop(pages.insert("home", "/index.html")?);
    drop(pages.insert("news", "/new.html")?);
    let callback = FnCallback::new(|link| {
        let page = pages.get(link.reference.as_str())?;
        Some((CowStr::Borrowed(*page), CowStr::Borrowed("")))
    });
    let parser = Parser::new_with_broken_link_callback(
        rt.alloc(),
        "[here][home], [news], [x]",
        Options::empty(),
        &BasicEntities,
        Some(callback),
    )?;
    let mut html = String::new(rt.alloc());
    push_html(&mut html, parser)?;
    assert_eq!(rt;
        html.as_str(),
        "<p><a href=\"/index.html\">here</a>, <a href=\"/new.html\">news</a>, [x]</p>\n"
    );
    Ok(())
}
