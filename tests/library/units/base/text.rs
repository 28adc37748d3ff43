use bitflags::Flags;
use cmark_text::{
    Alignment, BasicEntities, BlockQuoteKind, CodeBlockKind, CowStr, EntityLookup, Event,
    FootnoteLabel, HeadingLevel, InlineStr, InvalidHeadingLevel, LinkLabel, LinkType,
    MetadataBlockKind, Options, StringTooLongError, Tag, TagEnd, escape_href, escape_html,
    escape_html_body_text,
};
use std::alloc::{AllocError, Global};
use std::borrow;
use std::hash::{DefaultHasher, Hash, Hasher};
use std::test::Fail;

/// A text of 22 bytes.
const SHORT: &str = "abcdefghijklmnopqrstuv";

/// A text of 23 bytes.
const LONG: &str = "abcdefghijklmnopqrstuvw";

fn hash_of<T: Hash>(value: &T) -> u64 {
    let mut state = DefaultHasher::new();
    value.hash(&mut state);
    state.finish()
}

#[test]
fn short_texts(rt: HostRuntime) -> Result<(), Fail> {
    let short = InlineStr::try_from(SHORT).ok().ok_or("22 bytes fit")?;
    assert_eq!(rt; short.as_str(), SHORT);
    assert_eq!(rt; short.clone().as_str(), SHORT);
    assert_eq!(rt; InlineStr::try_from(LONG).err(), Some(StringTooLongError));
    assert_eq!(rt; InlineStr::from('é').as_str(), "é");
    assert_eq!(rt; format!(in rt.alloc(); "{short}")?.as_str(), SHORT);
    assert_eq!(rt; hash_of(&short), hash_of(&short.clone()));
    Ok(())
}

#[test]
fn texts_of_every_variant_are_equal(rt: HostRuntime) -> Result<(), Fail> {
    let borrowed = CowStr::from("é");
    let inlined = CowStr::from('é');
    let boxed = CowStr::from_string(String::from_str(rt.alloc(), "é")?)?;
    assert!(rt; borrowed == inlined);
    assert!(rt; inlined == boxed);
    assert_eq!(rt; hash_of(&borrowed), hash_of(&inlined));
    assert_eq!(rt; hash_of(&inlined), hash_of(&boxed));
    assert!(rt; borrowed != CowStr::from("e"));
    assert_eq!(rt; format!(in rt.alloc(); "{boxed}")?.as_str(), "é");
    Ok(())
}

#[test]
fn texts_are_converted(rt: HostRuntime) -> Result<(), Fail> {
    let alloc = rt.alloc();
    let long = CowStr::from(LONG).into_static(alloc)?;
    assert!(rt; matches!(&long, CowStr::Boxed(_)));
    assert_eq!(rt; long.clone(alloc)?.as_str(), LONG);
    assert_eq!(rt; long.into_string(alloc)?.as_str(), LONG);
    assert_eq!(rt; CowStr::from(SHORT).into_string(alloc)?.as_str(), SHORT);
    let short = CowStr::from(SHORT).into_static(alloc)?;
    assert!(rt; matches!(&short, CowStr::Inlined(_)));
    let cow = short.into_cow(alloc)?;
    assert_eq!(rt; cow.as_str(), SHORT);
    assert_eq!(rt; CowStr::from_cow(cow)?.as_str(), SHORT);
    let cow = CowStr::from(LONG).into_cow(alloc)?;
    assert!(rt; matches!(&cow, borrow::CowStr::Borrowed(_)));
    Ok(())
}

#[test]
fn heading_levels(rt: HostRuntime) -> Result<(), Fail> {
    assert_eq!(rt; HeadingLevel::try_from(0), Err(InvalidHeadingLevel(0)));
    assert_eq!(rt; HeadingLevel::try_from(1), Ok(HeadingLevel::H1));
    assert_eq!(rt; HeadingLevel::try_from(6), Ok(HeadingLevel::H6));
    assert_eq!(rt; HeadingLevel::try_from(7), Err(InvalidHeadingLevel(7)));
    assert!(rt; HeadingLevel::H1 < HeadingLevel::H2);
    let level = HeadingLevel::H3;
    assert_eq!(rt; format!(in rt.alloc(); "{level}")?.as_str(), "h3");
    Ok(())
}

#[test]
fn link_types(rt: HostRuntime) {
    assert_eq!(rt;
        LinkType::Collapsed.to_unknown(),
        LinkType::CollapsedUnknown
    );
    assert_eq!(rt; LinkType::Inline.to_unknown(), LinkType::Inline);
}

#[test]
fn code_blocks(rt: HostRuntime) -> Result<(), Fail> {
    let fenced = CodeBlockKind::Fenced(CowStr::from("rust"));
    assert!(rt; fenced.is_fenced());
    assert!(rt; !fenced.is_indented());
    assert!(rt; CodeBlockKind::Indented.is_indented());
    assert!(rt; fenced.clone(rt.alloc())? == fenced);
    assert!(rt; fenced.into_static(rt.alloc())? == CodeBlockKind::Fenced(CowStr::from("rust")));
    Ok(())
}

#[test]
fn options(rt: HostRuntime) {
    assert_eq!(rt; Options::ENABLE_OLD_FOOTNOTES.bits(), 516);
    assert_eq!(rt; Options::ENABLE_WIKILINKS.bits(), 32768);
    assert_eq!(rt; Options::ENABLE_HIGHLIGHT.bits(), 65536);
    assert_eq!(rt; Options::ENABLE_EMAIL_AUTOLINKS.bits(), 131072);
    assert_eq!(rt; Options::GITHUB.bits(), 133150);
    assert!(rt; !Options::empty().has_gfm_footnotes());
    assert!(rt; Options::ENABLE_FOOTNOTES.has_gfm_footnotes());
    assert!(rt; !Options::ENABLE_OLD_FOOTNOTES.has_gfm_footnotes());
    assert_eq!(rt; Options::all().bits(), 262142);
    assert!(rt; Options::from_name("ENABLE_MATH") == Some(Options::ENABLE_MATH));
}

/// Whether two link labels are equal, and whether their hashes are.
fn compared(alloc: Global, one: &str, other: &str) -> Result<(bool, bool), AllocError> {
    let one = LinkLabel::new(alloc, one)?;
    let other = LinkLabel::new(alloc, other)?;
    Ok((one == other, hash_of(&one) == hash_of(&other)))
}

#[test]
fn link_labels(rt: HostRuntime) -> Result<(), AllocError> {
    let alloc = rt.alloc();
    assert_eq!(rt; LinkLabel::new(alloc, " a\t b ")?.as_str(), "a b");
    assert!(rt; compared(alloc, " a\t b ", "A B")?.0);
    assert!(rt; !compared(alloc, " a\t b ", "ab")?.0);
    assert_eq!(rt; compared(alloc, "ẞ", "SS")?, (true, true));
    Ok(())
}

/// Whether two footnote labels are equal, and whether their hashes are.
fn compared_footnotes(alloc: Global, one: &str, other: &str) -> Result<(bool, bool), AllocError> {
    let one = FootnoteLabel::new(alloc, one)?;
    let other = FootnoteLabel::new(alloc, other)?;
    Ok((one == other, hash_of(&one) == hash_of(&other)))
}

#[test]
fn footnote_labels(rt: HostRuntime) -> Result<(), AllocError> {
    let alloc = rt.alloc();
    let written = "\u{c}Ab\r\n\tc";
    assert_eq!(rt; FootnoteLabel::new(alloc, written)?.as_str(), "Ab c");
    assert_eq!(rt; compared_footnotes(alloc, written, "aB C")?, (true, true));
    assert!(rt; !compared_footnotes(alloc, written, "Ab\u{b}c")?.0);
    Ok(())
}

#[test]
fn escapes(rt: HostRuntime) -> Result<(), AllocError> {
    let mut out = String::new(rt.alloc());
    escape_html(&mut out, "a<\"'&>")?;
    assert_eq!(rt; out.as_str(), "a&lt;&quot;&#x27;&amp;&gt;");
    out.clear();
    escape_html_body_text(&mut out, "a<\"'&>")?;
    assert_eq!(rt; out.as_str(), "a&lt;\"'&amp;&gt;");
    out.clear();
    escape_href(&mut out, "é")?;
    assert_eq!(rt; out.as_str(), "%C3%A9");
    escape_href(&mut out, "/x y&\"'")?;
    assert_eq!(rt; out.as_str(), "%C3%A9/x%20y&amp;%22&#x27;");
    Ok(())
}

#[test]
fn entities(rt: HostRuntime) {
    assert_eq!(rt; BasicEntities.get_entity("copy"), Some("©"));
    assert_eq!(rt; BasicEntities.get_entity("Copy"), None);
}

/// A heading with an attribute of each kind.
fn heading(alloc: Global) -> Result<Tag<'static>, AllocError> {
    let classes = vec![in alloc; CowStr::from("wide")]?;
    let attrs = vec![in alloc; (CowStr::from("lang"), Some(CowStr::from("la")))]?;
    Ok(Tag::Heading {
        level: HeadingLevel::H2,
        id: Some(CowStr::from("top")),
        classes,
        attrs,
    })
}

/// Whether copies of a tag are equal to it.
fn has_equal_copies(alloc: Global, tag: &Tag<'_>) -> Result<bool, AllocError> {
    let copy = tag.clone(alloc)?;
    let is_equal = copy == *tag;
    let owned = copy.into_static(alloc)?;
    Ok(is_equal && owned == *tag)
}

/// Whether this is a tag's end.
fn ends_by(tag: Tag<'_>, end: TagEnd) -> bool {
    let is_end = tag.to_end() == end;
    is_end && TagEnd::from(tag) == end
}

#[test]
fn tags(rt: HostRuntime) -> Result<(), Fail> {
    let alloc = rt.alloc();
    let heading = heading(alloc)?;
    let holds = has_equal_copies(alloc, &heading);
    let ends = ends_by(heading, TagEnd::Heading(HeadingLevel::H2));
    assert!(rt; ends && holds?);
    let table = Tag::Table(vec![in alloc; Alignment::None, Alignment::Right]?);
    let holds = has_equal_copies(alloc, &table);
    drop(table);
    assert!(rt; holds?);
    assert!(rt; ends_by(Tag::List(Some(1)), TagEnd::List(true)));
    assert!(rt; ends_by(Tag::List(None), TagEnd::List(false)));
    let kind = Some(BlockQuoteKind::Tip);
    assert!(rt; ends_by(Tag::BlockQuote(kind), TagEnd::BlockQuote(kind)));
    let metadata = Tag::MetadataBlock(MetadataBlockKind::YamlStyle);
    let end = TagEnd::MetadataBlock(MetadataBlockKind::YamlStyle);
    assert!(rt; ends_by(metadata, end));
    assert!(rt; end != TagEnd::MetadataBlock(MetadataBlockKind::PlusesStyle));
    Ok(())
}

/// Whether copies of an event are equal to it.
fn has_equal_event_copies(alloc: Global, event: &Event<'_>) -> Result<bool, AllocError> {
    let copy = event.clone(alloc)?;
    let is_equal = copy == *event;
    let owned = copy.into_static(alloc)?;
    Ok(is_equal && owned == *event)
}

#[test]
fn events(rt: HostRuntime) -> Result<(), Fail> {
    let alloc = rt.alloc();
    let start = Event::Start(Tag::Link {
        link_type: LinkType::WikiLink { has_pothole: true },
        dest_url: CowStr::from("/url"),
        title: CowStr::from(LONG),
        id: CowStr::from(""),
    });
    let holds = has_equal_event_copies(alloc, &start);
    let differs = start != Event::SoftBreak;
    drop(start);
    assert!(rt; differs && holds?);
    Ok(())
}
