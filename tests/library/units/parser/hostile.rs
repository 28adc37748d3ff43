//! Texts and callbacks that try to make the parser slow, to make it use much memory, or to break it.

ghost use Rattle.std.specs.Prelude.{◌≡◌};

use bitflags::Flags;
use pulldown_cmark::html::push_html;
use pulldown_cmark::{
    BasicEntities, BrokenLink, BrokenLinkCallback, CowStr, DefaultBrokenLinkCallback, Event,
    LinkType, Options, Parser, TagEnd,
};
use std::alloc::{AllocError, Global};
use std::ops::Range;
use std::test::Fail;

/// The most steps of the searches for each byte of a text.
const STEPS_A_BYTE: u128 = 128;

/// The most events for each byte of a text.
const EVENTS_A_BYTE: usize = 32;

/// Gives the same long destination for each question, and records the offset of the question.
#[derive(Drop)]
struct Long<'q> {
    url: &'q str,
    asked: &'q mut Vec<(usize, usize, LinkType)>,
}

impl<'input, 'q: 'input> BrokenLinkCallback<'input> for Long<'q> {
    ghost answers = { λ before link answer after. after ≡ after };

    fn handle_broken_link(
        &mut self,
        link: BrokenLink<'input>,
    ) -> Option<(CowStr<'input>, CowStr<'input>)> {
        let asked = (link.span.start, link.span.end, link.link_type);
        if self.asked.push(asked).is_err() {
            return None;
        }
        Some((CowStr::Borrowed(self.url), CowStr::Borrowed("")))
    }
}

/// Whether a range is inside a text and ends at character boundaries.
fn fits(text: &str, range: &Range<usize>) -> bool {
    range.start <= range.end
        && range.end <= text.len()
        && text.is_char_boundary(range.start)
        && text.is_char_boundary(range.end)
}

/// The elements that a walk has open, and the number of its events.
#[derive(Drop)]
struct Walked {
    opened: Vec<(TagEnd, Range<usize>)>,
    events: usize,
}

impl Walked {
    /// Takes an event. Returns false if it is an end whose element or range differs from that of the start that it closes.
    fn take(&mut self, event: Event<'_>, range: Range<usize>) -> Result<bool, AllocError> {
        self.events = self.events.saturating_add(1);
        match event {
            Event::Start(tag) => {
                self.opened.push((tag.to_end(), range))?;
                drop(tag);
                Ok(true)
            }
            Event::End(tag) => match self.opened.pop() {
                Some((wanted, whole)) => Ok(wanted == tag && whole == range),
                None => Ok(false),
            },
            other => {
                drop(other);
                Ok(true)
            }
        }
    }
}

/// The number of events of a walk, if it is balanced, each range fits, and neither the steps nor the events are too many.
fn walk<'input, F: BrokenLinkCallback<'input> + Drop>(
    alloc: Global,
    text: &'input str,
    options: Options,
    callback: Option<F>,
) -> Result<Option<usize>, AllocError> {
    let parser =
        Parser::new_with_broken_link_callback(alloc, text, options, &BasicEntities, callback)?;
    let mut iter = parser.into_offset_iter();
    let mut walked = Walked { opened: Vec::new(alloc), events: 0 };
    while let Some(item) = iter.next() {
        let (event, range) = item?;
        if !fits(text, &range) || !walked.take(event, range)? {
            return Ok(None);
        }
    }
    let steps = iter.steps();
    let taken = steps.html + steps.openers + steps.closers;
    let few = taken <= STEPS_A_BYTE * (text.len() as u128)
        && walked.events <= EVENTS_A_BYTE * text.len();
    Ok(if few && walked.opened.is_empty() { Some(walked.events) } else { None })
}

/// The same for a walk without a callback.
fn walk_alone(alloc: Global, text: &str, options: Options) -> Result<Option<usize>, AllocError> {
    let none: Option<DefaultBrokenLinkCallback> = None;
    walk(alloc, text, options, none)
}

/// The HTML of a text that is read with these options.
fn html_with(alloc: Global, text: &str, options: Options) -> Result<String, AllocError> {
    let mut html = String::new(alloc);
    push_html(&mut html, Parser::new_ext(alloc, text, options, &BasicEntities)?)?;
    Ok(html)
}

#[test]
fn a_thousand_quotes_are_nested(rt: HostRuntime) -> Result<(), Fail> {
    let quotes = ">".repeat(rt.alloc(), 1_000)?;
    let text = format!(in rt.alloc(); "{quotes} a")?;
    assert_eq!(rt; walk_alone(rt.alloc(), text.as_str(), Options::empty())?, Some(2_003));
    let parser = Parser::new(rt.alloc(), text.as_str(), &BasicEntities)?;
    let mut iter = parser.into_offset_iter();
    for start in 0..1_000 {
        let Some(item) = iter.next() else {
            return Ok(assert!(rt; false, "no event {start}"));
        };
        let (event, range) = item?;
        assert_eq!(rt; (range.start, range.end), (start, 1_002), "of quote {start}");
        drop(event);
    }
    Ok(())
}

#[test]
fn brackets_without_ends_are_text(rt: HostRuntime) -> Result<(), Fail> {
    let text = "[".repeat(rt.alloc(), 10_000)?;
    let wanted = format!(in rt.alloc(); "<p>{text}</p>\n")?;
    let html = html_with(rt.alloc(), text.as_str(), Options::empty())?;
    assert!(rt; html.as_str() == wanted.as_str());
    assert!(rt; walk_alone(rt.alloc(), text.as_str(), Options::empty())?.is_some());
    Ok(())
}

#[test]
fn declarations_are_sought_once(rt: HostRuntime) -> Result<(), Fail> {
    let many = "<!A".repeat(rt.alloc(), 1_000)?;
    let text = format!(in rt.alloc(); "x {many}>")?;
    let parser = Parser::new(rt.alloc(), text.as_str(), &BasicEntities)?;
    let mut iter = parser.into_offset_iter();
    let mut found = Vec::new(rt.alloc());
    while let Some(item) = iter.next() {
        let (event, range) = item?;
        if let Event::InlineHtml(_) = &event {
            found.push((range.start, range.end))?;
        }
        drop(event);
    }
    assert_eq!(rt; found.as_slice(), [(2, 3_003)].as_slice());
    assert_eq!(rt; walk_alone(rt.alloc(), text.as_str(), Options::empty())?, Some(4));
    Ok(())
}

#[test]
fn wikilinks_add_up(rt: HostRuntime) -> Result<(), Fail> {
    let once = "[[[[^(\n|]]]]=]]]]]]]]\n";
    let text = once.repeat(rt.alloc(), 8)?;
    let options = Options::ENABLE_WIKILINKS;
    let Some(alone) = walk_alone(rt.alloc(), once, options)? else {
        return Ok(assert!(rt; false));
    };
    let Some(all) = walk_alone(rt.alloc(), text.as_str(), options)? else {
        return Ok(assert!(rt; false));
    };
    assert!(rt; alone > 0 && all <= 20 * alone);
    Ok(())
}

#[test]
fn a_long_answer_takes_all_of_the_limit(rt: HostRuntime) -> Result<(), Fail> {
    let url = "u".repeat(rt.alloc(), 100_000)?;
    let text = "[a][b][c]";
    let mut asked = Vec::new(rt.alloc());
    let callback = Some(Long { url: url.as_str(), asked: &mut asked });
    assert!(rt; walk(rt.alloc(), text, Options::empty(), callback)?.is_some());
    assert_eq!(rt; asked.as_slice(), [(0, 6, LinkType::Reference)].as_slice());
    let mut asked = Vec::new(rt.alloc());
    let callback = Some(Long { url: url.as_str(), asked: &mut asked });
    let options = Options::empty();
    let parser = Parser::new_with_broken_link_callback(
        rt.alloc(),
        text,
        options,
        &BasicEntities,
        callback,
    )?;
    let mut html = String::new(rt.alloc());
    push_html(&mut html, parser)?;
    let wanted = format!(in rt.alloc(); "<p><a href=\"{url}\">a</a>[c]</p>\n")?;
    assert!(rt; html.as_str() == wanted.as_str());
    Ok(())
}

/// The number of beginnings of a text, if the walk of each is balanced, with a callback that answers and without a callback.
fn cuts(alloc: Global, text: &str, options: Options) -> Result<Option<usize>, AllocError> {
    let mut count = 0;
    for end in 0..text.len() + 1 {
        if !text.is_char_boundary(end) {
            continue;
        }
        let mut asked = Vec::new(alloc);
        let callback = Some(Long { url: "http://example.com", asked: &mut asked });
        let alone = walk_alone(alloc, &text[..end], options)?;
        let answered = walk(alloc, &text[..end], options, callback)?;
        if alone.is_none() || answered.is_none() {
            return Ok(None);
        }
        count += 1;
    }
    Ok(Some(count))
}

#[test]
fn walks_of_cut_texts_are_balanced(rt: HostRuntime) -> Result<(), Fail> {
    let none = Options::empty();
    let kinds = [
        ("a [b](c) d", none),
        ("*hello* world", none),
        ("> <foo\n> bar>", none),
        ("[a][b][c]", none),
        ("a|b\n-|-\nc\n", Options::ENABLE_TABLES),
        ("[[a|]]", Options::ENABLE_WIKILINKS),
        ("For a new ferrari, [[Wikientry|click here]]!", Options::ENABLE_WIKILINKS),
        ("`a\r\nb`", none),
        ("![a *b* `c`](d \"t\")", none),
        ("- a\n\n- b\n", none),
        ("- a\n- b\n", none),
        ("> x\ny\n", none),
        ("\t> a\n", none),
        ("x <![CDATA[a]]>b]]>\n", none),
        ("[\u{1e9e}]\n\n[SS]: /u\n", none),
        ("![[a](b)c]]", Options::ENABLE_WIKILINKS),
        ("[a](</x y&\"'>)", none),
        ("&copy; &zzz; &#0;", none),
        ("<a@b.c>", none),
        ("\"a\" -- 'b'...", Options::ENABLE_SMART_PUNCTUATION),
        ("a[^1]\n\n[^1]: b\n", Options::ENABLE_FOOTNOTES),
        ("a [^a]\n\n[^a]: yolo", none),
        ("- [x] a\n", Options::ENABLE_TASKLISTS),
        ("Term\n: def\n", Options::ENABLE_DEFINITION_LIST),
        ("> [!NOTE]\n> a\n", Options::ENABLE_GFM),
        ("# a {#b .c}\n", Options::ENABLE_HEADING_ATTRIBUTES),
        ("---\na\n---\nb\n", Options::ENABLE_YAML_STYLE_METADATA_BLOCKS),
        ("$a$", Options::ENABLE_MATH),
        ("a  \nb\\\nc\\", none),
        ("Hello world, check out [my website][].", none),
        ("[x] [x] [x]\n\n[x]: uuuuuuuuuuuuuuuuuuuuuuuuuuuuuuuuuuuuuuuuuuuuuuuuuuuuuuuuuuuuuuuuuuuuuuuuuuuuuuuuuu", none),
    ];
    for (text, options) in kinds {
        let wanted = text.chars().count() + 1;
        assert_eq!(rt; cuts(rt.alloc(), text, options)?, Some(wanted), "of {text:?}");
    }
    Ok(())
}
