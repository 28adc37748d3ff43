//! Tests of footnote references, with footnotes that are defined.

use super::inline::{events_with, whole};
use bitflags::Flags;
use cmark_inline::{BrokenLink, BrokenLinkCallback};
use cmark_items::{FootnoteDef, FootnoteDefs, LinkDef, RefDefs};
use cmark_text::{CowStr, FootnoteLabel, LinkLabel, Options};
use std::alloc::Global;
use std::test::Fail;

/// A callback that always answers, and counts the questions.
#[derive(Drop)]
struct Answering {
    asked: u32,
}

impl<'input> BrokenLinkCallback<'input> for Answering {
    ghost answers = { λ before link answer after. Unit {0} };

    fn handle_broken_link(
        &mut self,
        _link: BrokenLink<'input>,
    ) -> Option<(CowStr<'input>, CowStr<'input>)> {
        self.asked = self.asked.saturating_add(1);
        Some((CowStr::Borrowed("/asked"), CowStr::Borrowed("")))
    }
}

/// The events of a source with the footnote `A  b` and the definition `[x]: /x`, and the numbers of questions and of uses of the footnote.
#[derive(Drop)]
struct Found {
    events: String,
    asked: u32,
    uses: Option<usize>,
}

fn read(alloc: Global, source: &'static str, options: Options) -> Result<Found, Fail> {
    let mut references = RefDefs::new(alloc);
    let def = LinkDef {
        dest: CowStr::Borrowed("/x"),
        title: None,
        span: 0..0,
    };
    references.insert(LinkLabel::new(alloc, "x")?, def)?;
    let mut footnotes = FootnoteDefs::new(alloc);
    let label = FootnoteLabel::new(alloc, "A  b")?;
    footnotes.insert(label, FootnoteDef { use_count: 0 })?;
    let mut callback = Answering { asked: 0 };
    let leaf = whole(alloc, source)?;
    let events = events_with(
        alloc,
        leaf,
        &references,
        &mut footnotes,
        options,
        &mut callback,
    )?;
    let uses = footnotes.get_mut("a b")?.map(|def| def.use_count);
    Ok(Found {
        events,
        asked: callback.asked,
        uses,
    })
}

#[test]
fn references_to_a_footnote(rt: HostRuntime) -> Result<(), Fail> {
    let found = read(rt.alloc(), "[^a  B]![^A b][]", Options::ENABLE_FOOTNOTES)?;
    assert_eq!(rt;
        found.events.as_str(),
        "0..7 FootnoteReference(\"a B\")\n\
         7..8 Text(\"!\")\n\
         8..14 FootnoteReference(\"A b\")\n\
         14..15 Text(\"[\")\n\
         15..16 Text(\"]\")\n"
    );
    assert_eq!(rt; (found.asked, found.uses), (0, Some(2)));
    Ok(())
}

#[test]
fn no_reference_without_its_footnote(rt: HostRuntime) -> Result<(), Fail> {
    let found = read(rt.alloc(), "[^c]", Options::ENABLE_FOOTNOTES)?;
    assert_eq!(rt;
        found.events.as_str(),
        "0..1 Text(\"[\")\n\
         1..3 Text(\"^c\")\n\
         3..4 Text(\"]\")\n"
    );
    assert_eq!(rt; (found.asked, found.uses), (0, Some(0)));
    let old = read(rt.alloc(), "[^c]", Options::ENABLE_OLD_FOOTNOTES)?;
    assert_eq!(rt; old.events.as_str(), "0..4 FootnoteReference(\"c\")\n");
    assert_eq!(rt; (old.asked, old.uses), (0, Some(0)));
    Ok(())
}

#[test]
fn a_label_of_a_footnote_names_no_link(rt: HostRuntime) -> Result<(), Fail> {
    let found = read(rt.alloc(), "[x][^a b]", Options::ENABLE_FOOTNOTES)?;
    assert_eq!(rt;
        found.events.as_str(),
        "0..3 Start(Link { link_type: Shortcut, dest_url: \"/x\", title: \"\", id: \"x\" })\n\
         1..2 Text(\"x\")\n\
         0..3 End(Link)\n\
         3..9 FootnoteReference(\"a b\")\n"
    );
    Ok(())
}

#[test]
fn no_link_over_a_reference(rt: HostRuntime) -> Result<(), Fail> {
    let found = read(rt.alloc(), "[c [^a b] ](u)", Options::ENABLE_FOOTNOTES)?;
    assert_eq!(rt;
        found.events.as_str(),
        "0..1 Text(\"[\")\n\
         1..3 Text(\"c \")\n\
         3..9 FootnoteReference(\"a b\")\n\
         9..10 Text(\" \")\n\
         10..11 Text(\"]\")\n\
         11..14 Text(\"(u)\")\n"
    );
    assert_eq!(rt; (found.asked, found.uses), (0, Some(1)));
    Ok(())
}

#[test]
fn a_label_over_lines_is_one_of_a_link(rt: HostRuntime) -> Result<(), Fail> {
    let gfm = read(rt.alloc(), "[^a\nb]", Options::ENABLE_FOOTNOTES)?;
    assert_eq!(rt; (gfm.asked, gfm.uses), (1, Some(0)));
    let old = read(rt.alloc(), "[^a\nb]", Options::ENABLE_OLD_FOOTNOTES)?;
    assert_eq!(rt; old.events.as_str(), "0..6 FootnoteReference(\"a b\")\n");
    assert_eq!(rt; (old.asked, old.uses), (0, Some(1)));
    let off = read(rt.alloc(), "[^a b]", Options::ENABLE_TABLES)?;
    assert_eq!(rt; (off.asked, off.uses), (1, Some(0)));
    Ok(())
}

#[test]
fn a_reference_that_a_wikilink_hides_is_counted(rt: HostRuntime) -> Result<(), Fail> {
    let options = Options::ENABLE_FOOTNOTES.union(Options::ENABLE_WIKILINKS);
    let found = read(rt.alloc(), "[[c [^a b]|d]]", options)?;
    assert!(rt; !found.events.as_str().contains("FootnoteReference"));
    assert_eq!(rt; (found.asked, found.uses), (0, Some(1)));
    Ok(())
}
