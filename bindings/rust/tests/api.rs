//! The types, conversions and traits that programs for pulldown-cmark 0.13 rely on, and threads.

use pulldown_cmark::utils::TextMergeWithOffset as OfUtils;
use pulldown_cmark::{
    events_json, html, Alignment, BlockQuoteKind, BrokenLink, BrokenLinkCallback, CodeBlockKind,
    CowStr, DefaultBrokenLinkCallback, Error, Event, HeadingLevel, InlineStr, LinkDef, LinkType,
    MetadataBlockKind, OffsetIter, Options, Parser, RefDefs, Tag, TagEnd, TextMergeWithOffset,
};
use std::borrow::{Borrow, Cow};
use std::collections::HashMap;
use std::iter::FusedIterator;

#[test]
fn texts_convert_as_in_the_original() {
    let long = "a text of more than twenty-two bytes";
    assert!(matches!(CowStr::from("a"), CowStr::Borrowed("a")));
    assert!(matches!(CowStr::from(String::from("a")), CowStr::Boxed(_)));
    assert!(matches!(CowStr::from('é'), CowStr::Inlined(_)));
    assert!(matches!(
        CowStr::from(Cow::Borrowed("a")),
        CowStr::Borrowed("a")
    ));
    assert!(matches!(
        CowStr::from(Cow::Borrowed(&'a')),
        CowStr::Inlined(_)
    ));
    assert!(matches!(
        Cow::from(CowStr::Borrowed("a")),
        Cow::Borrowed("a")
    ));
    assert_eq!(Cow::from(CowStr::from('a')), Cow::<str>::Owned("a".into()));
    assert!(matches!(
        CowStr::Borrowed("a").into_static(),
        CowStr::Inlined(_)
    ));
    assert!(matches!(
        CowStr::Borrowed(long).into_static(),
        CowStr::Boxed(_)
    ));
    assert!(matches!(
        CowStr::Boxed("a".into()).clone(),
        CowStr::Inlined(_)
    ));
    assert!(matches!(
        CowStr::Boxed(long.into()).clone(),
        CowStr::Boxed(_)
    ));
    assert_eq!(CowStr::from('a').into_string(), "a");
    assert!(InlineStr::try_from(&long[..22]).is_ok());
    assert!(InlineStr::try_from(&long[..23]).is_err());
    assert_eq!(InlineStr::from('é').to_string(), "é");
    assert_eq!(
        std::mem::size_of::<CowStr>(),
        3 * std::mem::size_of::<usize>()
    );
    let text = CowStr::from(String::from("key"));
    let (deref, as_ref, borrow): (&str, &str, &str) = (&text, text.as_ref(), text.borrow());
    assert_eq!((deref, as_ref, borrow), ("key", "key", "key"));
    let table: HashMap<CowStr, u8> = [(text, 1)].into();
    assert_eq!(table.get("key"), Some(&1));
}

#[test]
fn kinds_and_tags_convert_as_in_the_original() {
    assert_eq!(HeadingLevel::try_from(6), Ok(HeadingLevel::H6));
    assert!(HeadingLevel::try_from(0).is_err() && HeadingLevel::try_from(7).is_err());
    assert_eq!(HeadingLevel::H3.to_string(), "h3");
    assert_eq!(HeadingLevel::H2 as usize, 2);
    assert!(HeadingLevel::H1 < HeadingLevel::H2);
    assert_eq!(TagEnd::from(Tag::List(Some(3))), TagEnd::List(true));
    assert_eq!(Tag::Table(vec![Alignment::Left]).to_end(), TagEnd::Table);
    assert!(CodeBlockKind::Fenced("".into()).is_fenced());
    assert!(CodeBlockKind::Indented.is_indented());
    assert!(std::mem::size_of::<TagEnd>() <= 2);
}

#[test]
fn events_live_as_long_as_needed() {
    let text = "# a `b` {#i .c k=v w}\n[e](f 'g') ![h](a-destination-of-more-than-22-bytes)\n\n|i|\n|-|\n\n```j\n```\n\n[^k]: l";
    let options = Options::all();
    let events: Vec<Event> = Parser::new_ext(text, options).collect();
    let owned: Vec<Event<'static>> = {
        let copy = String::from(text);
        Parser::new_ext(&copy, options)
            .map(Event::into_static)
            .collect()
    };
    assert_eq!(events, owned);
    assert_eq!(events.clone(), owned);
}

#[test]
fn texts_are_borrowed_from_the_source() {
    let text = "a *b* `code of more than 22 bytes` <http://an.autolink.of.more.bytes> <i class=of-more-than-22-bytes>\n\n\
        [a](a-destination-of-more-than-22-bytes) [[a wikilink of more than 22 bytes]]\n\n$a formula of more than 22 bytes$\n\n\
        # b {#an-id-of-more-than-22-bytes .c key=a-value-of-more-than-22-bytes}\n\n```an info string of more than 22 bytes\nc\n```\n";
    let within = |text: &CowStr, what: &Event| {
        assert!(matches!(text, CowStr::Borrowed(_)), "{text:?} of {what:?}");
    };
    let mut seen = 0;
    for event in Parser::new_ext(text, Options::all()) {
        match &event {
            Event::Text(text)
            | Event::Code(text)
            | Event::InlineHtml(text)
            | Event::InlineMath(text) => within(text, &event),
            Event::Start(Tag::Link { dest_url, .. }) => within(dest_url, &event),
            Event::Start(Tag::CodeBlock(CodeBlockKind::Fenced(info))) => within(info, &event),
            Event::Start(Tag::Heading {
                id, classes, attrs, ..
            }) => {
                let values = attrs
                    .iter()
                    .flat_map(|(name, value)| [Some(name), value.as_ref()]);
                let all = classes.iter().map(Some).chain(values).chain([id.as_ref()]);
                all.flatten().for_each(|it| within(it, &event));
            }
            _ => continue,
        }
        seen += 1;
    }
    assert!(seen > 15);
}

#[test]
fn options_are_those_of_the_original() {
    assert_eq!(Options::ENABLE_TABLES.bits(), 2);
    assert_eq!(Options::ENABLE_OLD_FOOTNOTES.bits(), 516);
    assert_eq!(Options::ENABLE_WIKILINKS.bits(), 1 << 15);
    assert!(Options::ENABLE_FOOTNOTES.has_gfm_footnotes());
    assert!(!Options::ENABLE_OLD_FOOTNOTES.has_gfm_footnotes());
    assert!(Options::all().contains(Options::ENABLE_MATH));
    assert_eq!(Options::from_bits(1), None);
    let mut options = Options::empty();
    options.insert(Options::ENABLE_TABLES);
    options |= Options::GITHUB;
    assert_eq!(options, Options::GITHUB);
}

#[test]
fn email_addresses_and_all_entity_names_are_read_without_an_option() {
    let text = "<a@b.c> &copy;&mdash;&ouml;&NotEqualTilde;&nosuch;";
    let found = html::to_html(text, Options::empty()).unwrap();
    assert_eq!(
        found,
        "<p><a href=\"mailto:a@b.c\">a@b.c</a> ©—ö\u{2242}\u{338}&amp;nosuch;</p>\n"
    );
    let mut out = String::new();
    html::push_html(&mut out, Parser::new(text));
    assert_eq!(out, found);
}

#[test]
fn changed_events_are_rendered() {
    let heading = Tag::Heading {
        level: HeadingLevel::H2,
        id: Some("i\"".into()),
        classes: vec!["c".into()],
        attrs: vec![("k".into(), Some("v".into())), ("w".into(), None)],
    };
    let end = Event::End(heading.to_end());
    let events = [Event::Start(heading), Event::Text("<".into()), end];
    let mut out = String::from("before ");
    html::push_html(&mut out, events.into_iter());
    assert_eq!(
        out,
        "before <h2 id=\"i&quot;\" class=\"c\" k=\"v\" w=\"\">&lt;</h2>\n"
    );
}

#[test]
fn writers_that_fail_give_their_error() {
    let mut room = [0; 4];
    let error = html::write_html_io(&mut room[..], Parser::new("text")).unwrap_err();
    assert_eq!(error.kind(), std::io::ErrorKind::WriteZero);
    assert_eq!(&room, b"<p>t");
}

#[test]
fn empty_and_nested_texts_are_read() {
    assert_eq!(Parser::new("").next(), None);
    assert_eq!(html::to_html("", Options::empty()), Ok(String::new()));
    assert_eq!(events_json("", Options::empty()), Ok(String::new()));
    let text = "> ".repeat(100_000) + "a";
    assert_eq!(Parser::new(&text).count(), 200_003);
    let found = html::to_html(&text, Options::empty()).unwrap();
    assert_eq!(found.matches("</blockquote>").count(), 100_000);
}

#[test]
fn references_stay_below_the_limit() {
    let text = "[x] [x]\n\n[x]: /u";
    let html_within = |limit| html::to_html_within(text, Options::empty(), limit).unwrap();
    assert_eq!(html_within(0), "<p>[x] [x]</p>\n");
    assert_eq!(html_within(1), "<p><a href=\"/u\">x</a> [x]</p>\n");
    assert_eq!(
        Ok(html_within(100_000)),
        html::to_html(text, Options::empty())
    );
}

#[test]
fn schemes_are_taken_but_for_some() {
    let found = html::to_safe_html("[a](tel:1) [b](data:c)", Options::empty(), &["tel", "data"]);
    assert_eq!(
        found.unwrap(),
        "<p><a href=\"tel:1\">a</a> <a href=\"\">b</a></p>\n"
    );
}

#[test]
fn labels_are_compared_without_case() {
    let text = "[ẞ]: /first\n[SS]: /second\n[a\n  b]: /u\n";
    let parser = Parser::new(text);
    let definitions = parser.reference_definitions();
    assert_eq!(&*definitions.get("ss").unwrap().dest, "/first");
    assert_eq!(definitions.get("A B").unwrap().title, None);
    assert_eq!(definitions.iter().count(), 2);
    let copy: LinkDef<'static> = definitions.get("a b").unwrap().clone().into_static();
    assert_eq!(&text[copy.span], "[a\n  b]: /u");
}

#[test]
fn callbacks_may_be_boxed() {
    struct Always(&'static str);
    impl<'input> BrokenLinkCallback<'input> for Always {
        fn handle_broken_link(
            &mut self,
            link: BrokenLink<'input>,
        ) -> Option<(CowStr<'input>, CowStr<'input>)> {
            let link = link.into_static();
            assert_eq!(link.link_type, LinkType::Collapsed);
            Some((self.0.into(), link.reference))
        }
    }
    let callback: Box<dyn BrokenLinkCallback> = Box::new(Always("/u"));
    let parser = Parser::new_with_broken_link_callback("[a][]", Options::empty(), Some(callback));
    let mut out = String::new();
    html::push_html(&mut out, parser);
    assert_eq!(out, "<p><a href=\"/u\" title=\"a\">a</a></p>\n");
}

#[test]
fn types_have_the_traits_of_the_original() {
    fn is_fused<I: FusedIterator>() {}
    fn is_shared<T: Send + Sync>() {}
    is_fused::<Parser>();
    is_fused::<OffsetIter<DefaultBrokenLinkCallback>>();
    is_shared::<Parser>();
    is_shared::<Event>();
    is_shared::<RefDefs>();
    let merged = OfUtils::new(Parser::new("a").into_offset_iter());
    let same: TextMergeWithOffset<_> = merged;
    assert_eq!(same.count(), 3);
    let parser = Parser::new("text");
    assert!(format!("{parser:?}").contains("text"));
    assert_eq!(RefDefs::default().iter().count(), 0);
    assert_eq!(Error::OutOfMemory.to_string(), "memory was refused");
}

#[test]
fn threads_read_at_the_same_time() {
    let texts: Vec<String> = (0..64)
        .map(|n| format!("# {n}\n\n*a* [b]\n\n[b]: /{n}\n").repeat(n + 1))
        .collect();
    let wanted: Vec<String> = texts
        .iter()
        .map(|it| html::to_html(it, Options::empty()).unwrap())
        .collect();
    std::thread::scope(|scope| {
        for _ in 0..16 {
            scope.spawn(|| {
                for (text, wanted) in texts.iter().zip(&wanted) {
                    let mut out = String::new();
                    html::push_html(&mut out, Parser::new(text));
                    assert_eq!(out, *wanted);
                }
            });
        }
    });
    let parser = Parser::new(&texts[9]);
    std::thread::scope(|scope| {
        for _ in 0..4 {
            scope.spawn(|| {
                assert_eq!(
                    &*parser.reference_definitions().get("B").unwrap().dest,
                    "/9"
                )
            });
        }
    });
}

#[cfg(feature = "highlight")]
#[test]
fn highlighted_text_is_read() {
    let mut out = String::new();
    html::push_html(
        &mut out,
        Parser::new_ext("==a==", Options::ENABLE_HIGHLIGHT),
    );
    assert_eq!(out, "<p><mark>a</mark></p>\n");
}

#[cfg(feature = "serde")]
#[test]
fn texts_are_deserialized() {
    use serde::de::{value::Error, IntoDeserializer};
    use serde::Deserialize;
    let found: Result<CowStr, Error> = CowStr::deserialize("text".into_deserializer());
    assert_eq!(found.unwrap(), CowStr::from("text"));
    fn is_serialized<'de, T: serde::Serialize + Deserialize<'de>>() {}
    is_serialized::<Event>();
    is_serialized::<TagEnd>();
}

#[test]
fn links_have_their_type_and_their_label() {
    let text =
        "[a](b) [c][a] [a][] [a] [d][e] [e][] [e] <xx:y> <f@g.h> [[i]] ![[j|k]]\n\n[a]: /u 'v'\n";
    let mut callback = |link: BrokenLink| Some((link.reference.to_uppercase().into(), "".into()));
    let parser =
        Parser::new_with_broken_link_callback(text, Options::ENABLE_WIKILINKS, Some(&mut callback));
    let links: Vec<_> = parser
        .filter_map(|event| match event {
            Event::Start(
                Tag::Link {
                    link_type,
                    dest_url,
                    title,
                    id,
                }
                | Tag::Image {
                    link_type,
                    dest_url,
                    title,
                    id,
                },
            ) => Some((
                link_type,
                dest_url.into_string(),
                title.into_string(),
                id.into_string(),
            )),
            _ => None,
        })
        .collect();
    let wanted = [
        (LinkType::Inline, "b", "", ""),
        (LinkType::Reference, "/u", "v", "a"),
        (LinkType::Collapsed, "/u", "v", "a"),
        (LinkType::Shortcut, "/u", "v", "a"),
        (LinkType::ReferenceUnknown, "E", "", "e"),
        (LinkType::CollapsedUnknown, "E", "", "e"),
        (LinkType::ShortcutUnknown, "E", "", "e"),
        (LinkType::Autolink, "xx:y", "", ""),
        (LinkType::Email, "f@g.h", "", ""),
        (LinkType::WikiLink { has_pothole: false }, "i", "", ""),
        (LinkType::WikiLink { has_pothole: true }, "j", "", ""),
    ];
    let wanted = wanted.map(|(link_type, dest, title, id)| {
        (link_type, dest.to_owned(), title.to_owned(), id.to_owned())
    });
    assert_eq!(links, wanted);
}

#[test]
fn metadata_blocks_and_alerts_have_their_kind() {
    let start = |text| {
        let options = Options::all();
        Parser::new_ext(text, options).next()
    };
    let metadata = |kind| Some(Event::Start(Tag::MetadataBlock(kind)));
    assert_eq!(
        start("---\na\n---\n"),
        metadata(MetadataBlockKind::YamlStyle)
    );
    assert_eq!(
        start("+++\na\n+++\n"),
        metadata(MetadataBlockKind::PlusesStyle)
    );
    for (text, kind) in [
        ("> [!NOTE]\n> a", Some(BlockQuoteKind::Note)),
        ("> [!TIP]\n> a", Some(BlockQuoteKind::Tip)),
        ("> [!IMPORTANT]\n> a", Some(BlockQuoteKind::Important)),
        ("> [!WARNING]\n> a", Some(BlockQuoteKind::Warning)),
        ("> [!CAUTION]\n> a", Some(BlockQuoteKind::Caution)),
        ("> a", None),
    ] {
        assert_eq!(start(text), Some(Event::Start(Tag::BlockQuote(kind))));
    }
}
