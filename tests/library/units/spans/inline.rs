//! Tests of the inline pass over the texts of leaves, with ample memory.

use bitflags::Flags;
use cmark_inline::{
    BrokenLink, BrokenLinkCallback, DefaultBrokenLinkCallback, InlineState, OwnedLinkCallback,
    Reader, Steps, special_bytes,
};
use cmark_items::{FootnoteDefs, LinkDef, RefDefs};
use cmark_slot_events::LeafEvents;
use cmark_leaf_text::{LeafLine, LeafText};
use cmark_text::{BasicEntities, CowStr, Event, LinkLabel, LinkType, Step, Options, Tag, TagEnd};
use std::alloc::{AllocError, Global};
use std::fmt::Write;
use std::test::Fail;

/// Whether a line is in the source at or after an offset, with character boundaries at its ends.
fn is_line(source: &str, from: usize, line: LeafLine) -> bool {
    from <= line.start
        && line.start <= line.content_end
        && line.content_end <= line.line_end
        && line.line_end <= source.len()
        && source.is_char_boundary(line.start)
        && source.is_char_boundary(line.content_end)
        && source.is_char_boundary(line.line_end)
}

/// A leaf of one line, which is the source.
pub fn whole<'a>(alloc: Global, source: &'a str) -> Result<Option<LeafText<'a>>, AllocError> {
    let line = LeafLine {
        start: 0,
        content_end: source.len(),
        line_end: source.len(),
    };
    if !is_line(source, 0, line) {
        return Ok(None);
    }
    let mut leaf = LeafText::new(alloc, source);
    leaf.read(&[line], false)?;
    Ok(Some(leaf))
}

/// A leaf of two lines after `> `, the second one from this offset on.
fn quoted<'a>(
    alloc: Global,
    source: &'a str,
    second: usize,
) -> Result<Option<LeafText<'a>>, AllocError> {
    let first = LeafLine {
        start: 2,
        content_end: second.saturating_sub(3),
        line_end: second.saturating_sub(2),
    };
    let last = LeafLine {
        start: second,
        content_end: source.len(),
        line_end: source.len(),
    };
    if !is_line(source, 0, first) || !is_line(source, first.line_end, last) {
        return Ok(None);
    }
    let mut leaf = LeafText::new(alloc, source);
    leaf.read(&[first, last], false)?;
    Ok(Some(leaf))
}

/// The events of a leaf without defined footnotes.
fn events<'a, F: BrokenLinkCallback<'a>>(
    alloc: Global,
    found: Option<LeafText<'a>>,
    references: &RefDefs<'a>,
    options: Options,
    callback: &mut F,
) -> Result<String, Fail> {
    let mut none = FootnoteDefs::new(alloc);
    events_with(alloc, found, references, &mut none, options, callback)
}

/// The events of a leaf, one per line: its range and its description. `None` if there is no leaf.
pub fn events_with<'a, F: BrokenLinkCallback<'a>>(
    alloc: Global,
    found: Option<LeafText<'a>>,
    references: &RefDefs<'a>,
    footnotes: &mut FootnoteDefs,
    options: Options,
    callback: &mut F,
) -> Result<String, Fail> {
    let mut out = String::new(alloc);
    let Some(leaf) = found else {
        return Ok(out);
    };
    let entities = BasicEntities;
    let special = special_bytes(options);
    let reader = Reader {
        entities: &entities,
        references,
        options,
        special: &special,
    };
    let mut state: InlineState<'a> = InlineState::new(alloc, 0);
    state.resolve(&leaf, &reader, footnotes, callback)?;
    let mut events: LeafEvents<'a> = LeafEvents::new(alloc);
    events.begin_leaf(&mut state.slots, &mut state.texts, &mut state.links);
    for _ in 0..500 {
        match events.step(&leaf)? {
            Step::Short(short, start, end) => {
                write!(out, "{}..{} {:?}\n", start, end, short.event(alloc))?;
            }
            Step::Long => {
                let given = events.take_long(&leaf)?;
                write!(
                    out,
                    "{}..{} {:?}\n",
                    given.range.start, given.range.end, given.event
                )?;
            }
            Step::Over => break,
        }
    }
    Ok(out)
}

/// The steps of the searches in a leaf of one line.
fn steps_of(alloc: Global, source: &str, options: Options) -> Result<Steps, Fail> {
    let leaf = whole(alloc, source)?.ok_or("no leaf")?;
    let references = RefDefs::new(alloc);
    let mut footnotes = FootnoteDefs::new(alloc);
    let entities = BasicEntities;
    let special = special_bytes(options);
    let reader = Reader {
        entities: &entities,
        references: &references,
        options,
        special: &special,
    };
    let mut state = InlineState::new(alloc, source.len());
    state.resolve(&leaf, &reader, &mut footnotes, &mut DefaultBrokenLinkCallback)?;
    Ok(state.steps())
}

#[test]
fn counts_no_steps(rt: HostRuntime) -> Result<(), Fail> {
    for text in ["", "hello world"] {
        let steps = steps_of(rt.alloc(), text, Options::empty())?;
        assert_eq!(rt; (steps.html, steps.openers, steps.closers), (0, 0, 0));
    }
    Ok(())
}

#[test]
fn counts_steps(rt: HostRuntime) -> Result<(), Fail> {
    let steps = steps_of(rt.alloc(), "x <!-- a <!-- b", Options::empty())?;
    assert_eq!(rt; (steps.html, steps.openers, steps.closers), (15, 0, 0));
    let steps = steps_of(rt.alloc(), "x <!-- a --> <b> <?c?>", Options::empty())?;
    assert_eq!(rt; (steps.html, steps.openers, steps.closers), (11, 0, 0));
    let steps = steps_of(rt.alloc(), "*a*", Options::empty())?;
    assert_eq!(rt; (steps.html, steps.openers, steps.closers), (0, 1, 0));
    let steps = steps_of(rt.alloc(), "`a`", Options::empty())?;
    assert_eq!(rt; (steps.html, steps.openers, steps.closers), (0, 0, 1));
    let steps = steps_of(rt.alloc(), "$a$", Options::ENABLE_MATH)?;
    assert_eq!(rt; (steps.html, steps.openers, steps.closers), (0, 0, 5));
    Ok(())
}

#[test]
fn counts_few_steps(rt: HostRuntime) -> Result<(), Fail> {
    let text = "*a_ ".repeat(rt.alloc(), 5000)?;
    let steps = steps_of(rt.alloc(), text.as_str(), Options::empty())?;
    assert!(rt; steps.openers <= 2_560_000);
    let text = " ${".repeat(rt.alloc(), 1000)?;
    let steps = steps_of(rt.alloc(), text.as_str(), Options::ENABLE_MATH)?;
    assert!(rt; steps.closers <= 12_000);
    Ok(())
}

/// Definitions of labels, all with this destination and title.
fn definitions(
    alloc: Global,
    labels: &[&str],
    dest: &str,
    title: Option<&str>,
) -> Result<RefDefs<'static>, Fail> {
    let mut references = RefDefs::new(alloc);
    for label in labels {
        let def = LinkDef {
            dest: CowStr::Borrowed(dest).into_static(alloc)?,
            title: match title {
                Some(title) => Some(CowStr::Borrowed(title).into_static(alloc)?),
                None => None,
            },
            span: 0..0,
        };
        references.insert(LinkLabel::new(alloc, label)?, def)?;
    }
    Ok(references)
}

/// A callback that records the questions, and always or never answers.
#[derive(Drop)]
struct Noted {
    asked: String,
    answers: bool,
}

impl<'input> BrokenLinkCallback<'input> for Noted {
    ghost answers = { λ before link answer after. Unit {0} };

    fn handle_broken_link(
        &mut self,
        link: BrokenLink<'input>,
    ) -> Option<(CowStr<'input>, CowStr<'input>)> {
        let _ = write!(
            self.asked,
            "{}..{} {:?} {:?}\n",
            link.span.start, link.span.end, link.link_type, link.reference
        );
        if self.answers {
            Some((CowStr::Borrowed("/u"), CowStr::Borrowed("t")))
        } else {
            None
        }
    }
}

/// The questions about a source that is one leaf.
fn asked_of(
    alloc: Global,
    source: &'static str,
    references: &RefDefs<'static>,
    answers: bool,
) -> Result<String, Fail> {
    let mut callback = Noted {
        asked: String::new(alloc),
        answers,
    };
    let leaf = whole(alloc, source)?;
    events(alloc, leaf, references, Options::empty(), &mut callback)?;
    Ok(callback.asked)
}

/// The events of a source that is one leaf, with these definitions.
fn defined_in(
    alloc: Global,
    source: &'static str,
    references: &RefDefs<'static>,
) -> Result<String, Fail> {
    let mut callback = DefaultBrokenLinkCallback;
    let leaf = whole(alloc, source)?;
    events(alloc, leaf, references, Options::empty(), &mut callback)
}

/// The events of a source that is one leaf.
fn of(alloc: Global, source: &str, options: Options) -> Result<String, Fail> {
    let references = RefDefs::new(alloc);
    let leaf = whole(alloc, source)?;
    events(
        alloc,
        leaf,
        &references,
        options,
        &mut DefaultBrokenLinkCallback,
    )
}

/// The events of a source of two lines in a block quote, the second one from this offset on.
fn in_quote(alloc: Global, source: &str, second: usize, options: Options) -> Result<String, Fail> {
    let references = RefDefs::new(alloc);
    let leaf = quoted(alloc, source, second)?;
    events(
        alloc,
        leaf,
        &references,
        options,
        &mut DefaultBrokenLinkCallback,
    )
}

#[test]
fn tilde_deactivates_caret(rt: HostRuntime) -> Result<(), Fail> {
    let found = of(
        rt.alloc(),
        "^a b~ c^",
        Options::ENABLE_SUPERSCRIPT.union(Options::ENABLE_STRIKETHROUGH),
    )?;
    assert_eq!(rt;
        found.as_str(),
        "0..1 Text(\"^\")\n\
         1..4 Text(\"a b\")\n\
         4..5 Text(\"~\")\n\
         5..7 Text(\" c\")\n\
         7..8 Text(\"^\")\n"
    );
    Ok(())
}

#[test]
fn double_tildes_without_strikethrough(rt: HostRuntime) -> Result<(), Fail> {
    let found = of(rt.alloc(), "a ~~b *c* d~~ e", Options::ENABLE_SUBSCRIPT)?;
    assert_eq!(rt;
        found.as_str(),
        "0..2 Text(\"a \")\n\
         2..13 Text(\"~~b *c* d~~\")\n\
         13..15 Text(\" e\")\n"
    );
    Ok(())
}

#[test]
fn double_tildes_around_links(rt: HostRuntime) -> Result<(), Fail> {
    let found = of(
        rt.alloc(),
        "~~a ~~b [c](d)~~ e~~ ~f~",
        Options::ENABLE_SUBSCRIPT,
    )?;
    assert_eq!(rt;
        found.as_str(),
        "0..20 Text(\"~~a ~~b [c](d)~~ e~~\")\n\
         20..21 Text(\" \")\n\
         21..24 Start(Subscript)\n\
         22..23 Text(\"f\")\n\
         21..24 End(Subscript)\n"
    );
    Ok(())
}

#[test]
fn strikethrough(rt: HostRuntime) -> Result<(), Fail> {
    let found = of(
        rt.alloc(),
        "~~a~~ ~b~ ~~~c~~~",
        Options::ENABLE_STRIKETHROUGH,
    )?;
    assert_eq!(rt;
        found.as_str(),
        "0..5 Start(Strikethrough)\n\
         2..3 Text(\"a\")\n\
         0..5 End(Strikethrough)\n\
         5..6 Text(\" \")\n\
         6..9 Start(Strikethrough)\n\
         7..8 Text(\"b\")\n\
         6..9 End(Strikethrough)\n\
         9..17 Text(\" ~~~c~~~\")\n"
    );
    Ok(())
}

#[test]
fn smart_row(rt: HostRuntime) -> Result<(), Fail> {
    let found = of(
        rt.alloc(),
        "\"a\" -- 'b'...",
        Options::ENABLE_SMART_PUNCTUATION,
    )?;
    assert_eq!(rt;
        found.as_str(),
        "0..1 Text(\"\u{201c}\")\n\
         1..2 Text(\"a\")\n\
         2..3 Text(\"\u{201d}\")\n\
         3..4 Text(\" \")\n\
         4..6 Text(\"\u{2013}\")\n\
         6..7 Text(\" \")\n\
         7..8 Text(\"\u{2018}\")\n\
         8..9 Text(\"b\")\n\
         9..10 Text(\"\u{2019}\")\n\
         10..13 Text(\"\u{2026}\")\n"
    );
    Ok(())
}

#[test]
fn dashes(rt: HostRuntime) -> Result<(), Fail> {
    let found = of(
        rt.alloc(),
        "-a--b---c----d-----e-------",
        Options::ENABLE_SMART_PUNCTUATION,
    )?;
    assert_eq!(rt;
        found.as_str(),
        "0..2 Text(\"-a\")\n\
         2..4 Text(\"\u{2013}\")\n\
         4..5 Text(\"b\")\n\
         5..8 Text(\"\u{2014}\")\n\
         8..9 Text(\"c\")\n\
         9..13 Text(\"\u{2013}\u{2013}\")\n\
         13..14 Text(\"d\")\n\
         14..19 Text(\"\u{2014}\u{2013}\")\n\
         19..20 Text(\"e\")\n\
         20..27 Text(\"\u{2014}\u{2013}\u{2013}\")\n"
    );
    Ok(())
}

#[test]
fn quotes_of_siblings(rt: HostRuntime) -> Result<(), Fail> {
    let found = of(
        rt.alloc(),
        "\"*a\"* 'b ['c'](d)",
        Options::ENABLE_SMART_PUNCTUATION,
    )?;
    assert_eq!(rt;
        found.as_str(),
        "0..1 Text(\"\u{201c}\")\n\
         1..5 Start(Emphasis)\n\
         2..3 Text(\"a\")\n\
         3..4 Text(\"\u{201d}\")\n\
         1..5 End(Emphasis)\n\
         5..6 Text(\" \")\n\
         6..7 Text(\"\u{2019}\")\n\
         7..9 Text(\"b \")\n\
         9..17 Start(Link { link_type: Inline, dest_url: \"d\", title: \"\", id: \"\" })\n\
         10..11 Text(\"\u{2018}\")\n\
         11..12 Text(\"c\")\n\
         12..13 Text(\"\u{2019}\")\n\
         9..17 End(Link)\n"
    );
    Ok(())
}

#[test]
fn double_tildes_over_lines(rt: HostRuntime) -> Result<(), Fail> {
    let found = in_quote(rt.alloc(), "> ~~a\n> b~~", 8, Options::ENABLE_SUBSCRIPT)?;
    assert_eq!(rt; found.as_str(), "2..11 Text(\"~~a\\n> b~~\")\n");
    Ok(())
}

#[test]
fn questions(rt: HostRuntime) -> Result<(), Fail> {
    let none = RefDefs::new(rt.alloc());
    let full = asked_of(rt.alloc(), "[a][b][c]", &none, false)?;
    assert_eq!(rt;
        full.as_str(),
        "0..6 Reference \"b\"\n3..9 Reference \"c\"\n"
    );
    let one = asked_of(rt.alloc(), "See also [`g()`][crate::g][].", &none, false)?;
    assert_eq!(rt; one.as_str(), "9..26 Reference \"crate::g\"\n");
    let normal = asked_of(rt.alloc(), "[ A \n b ][] ![c]", &none, true)?;
    assert_eq!(rt;
        normal.as_str(),
        "0..9 Collapsed \"A b\"\n12..16 Shortcut \"c\"\n"
    );
    Ok(())
}

#[test]
fn no_question_where_a_definition_is(rt: HostRuntime) -> Result<(), Fail> {
    let known = definitions(rt.alloc(), &["a"], "/1", None)?;
    let asked = asked_of(rt.alloc(), "[a] [a][] [x][a] [a](u)", &known, true)?;
    assert_eq!(rt; asked.as_str(), "");
    Ok(())
}

#[test]
fn spent_expansion_limit(rt: HostRuntime) -> Result<(), Fail> {
    let mut dest = String::new(rt.alloc());
    for _ in 0..60_000 {
        dest.push('u')?;
    }
    let known = definitions(rt.alloc(), &["x"], dest.as_str(), None)?;
    let found = defined_in(rt.alloc(), "[x] [x] [x]", &known)?;
    assert_eq!(rt; found.as_str().matches("Start(Link").count(), 2);
    assert!(rt;
        found.as_str().ends_with("8..9 Text(\"[\")\n9..10 Text(\"x\")\n10..11 Text(\"]\")\n")
    );
    let asked = asked_of(rt.alloc(), "[y] [x] [x] [y]", &known, false)?;
    assert_eq!(rt; asked.as_str(), "0..3 Shortcut \"y\"\n");
    Ok(())
}

/// A callback that always gives the same answer.
#[derive(Drop)]
struct Website;

impl<'input> BrokenLinkCallback<'input> for Website {
    ghost answers = { λ before link answer after. Unit {0} };

    fn handle_broken_link(
        &mut self,
        _link: BrokenLink<'input>,
    ) -> Option<(CowStr<'input>, CowStr<'input>)> {
        Some((
            CowStr::Borrowed("http://example.com"),
            CowStr::Borrowed("my example website"),
        ))
    }
}

#[test]
fn answered_questions(rt: HostRuntime) -> Result<(), Fail> {
    let none = RefDefs::new(rt.alloc());
    let leaf = whole(rt.alloc(), "[my website][]")?;
    let found = events(rt.alloc(), leaf, &none, Options::empty(), &mut Website)?;
    assert_eq!(rt;
        found.as_str(),
        "0..12 Start(Link { link_type: CollapsedUnknown, dest_url: \"http://example.com\", title: \"my example website\", id: \"my website\" })\n\
         1..11 Text(\"my website\")\n\
         0..12 End(Link)\n"
    );
    Ok(())
}

/// A callback that gives `u0`, `u1` and so on.
#[derive(Drop)]
struct Counted {
    count: u8,
}

impl OwnedLinkCallback for Counted {
    ghost says = { λ before start end kind label answer after. Unit {0} };

    fn handle_owned(
        &mut self,
        _start: usize,
        _end: usize,
        _link_type: LinkType,
        _reference: &str,
    ) -> Option<(CowStr<'static>, CowStr<'static>)> {
        let dest = if self.count == 0 { "u0" } else { "u1" };
        self.count = 1;
        Some((CowStr::Borrowed(dest), CowStr::Borrowed("")))
    }
}

#[test]
fn boxed_callback(rt: HostRuntime) -> Result<(), Fail> {
    let none = RefDefs::new(rt.alloc());
    let mut callback: Box<dyn OwnedLinkCallback> = Box::new(rt.alloc(), Counted { count: 0 })?;
    let leaf = whole(rt.alloc(), "[a] [b]")?;
    let found = events(rt.alloc(), leaf, &none, Options::empty(), &mut callback)?;
    assert_eq!(rt;
        found.as_str(),
        "0..3 Start(Link { link_type: ShortcutUnknown, dest_url: \"u0\", title: \"\", id: \"a\" })\n\
         1..2 Text(\"a\")\n\
         0..3 End(Link)\n\
         3..4 Text(\" \")\n\
         4..7 Start(Link { link_type: ShortcutUnknown, dest_url: \"u1\", title: \"\", id: \"b\" })\n\
         5..6 Text(\"b\")\n\
         4..7 End(Link)\n"
    );
    Ok(())
}

#[test]
fn backticks_that_are_not_closed(rt: HostRuntime) -> Result<(), Fail> {
    let found = of(rt.alloc(), "``` `a` `` b `c``", Options::empty())?;
    assert_eq!(rt;
        found.as_str(),
        "0..3 Text(\"```\")\n\
         3..4 Text(\" \")\n\
         4..7 Code(\"a\")\n\
         7..8 Text(\" \")\n\
         8..17 Code(\" b `c\")\n"
    );
    Ok(())
}

#[test]
fn stars_stay_open_where_tildes_are_inactive(rt: HostRuntime) -> Result<(), Fail> {
    let options = Options::ENABLE_STRIKETHROUGH;
    let found = of(rt.alloc(), "**a ~b~~ c~ d**", options)?;
    assert_eq!(rt;
        found.as_str(),
        "0..15 Start(Strong)\n\
         2..4 Text(\"a \")\n\
         4..5 Text(\"~\")\n\
         5..6 Text(\"b\")\n\
         6..7 Text(\"~\")\n\
         7..8 Text(\"~\")\n\
         8..10 Text(\" c\")\n\
         10..11 Text(\"~\")\n\
         11..13 Text(\" d\")\n\
         0..15 End(Strong)\n"
    );
    Ok(())
}
