//! Tests of records that are malformed, and of all records there and back.

use crate::decode::Decoder;
use crate::record::{kind, part, tag, Record, HEAD};
use crate::{definitions, encode, native, Error, Event, Options};

/// A text with each kind of event, and with each kind of further record.
const TEXT: &str = "---\na: b\n---\n# h {#i .c .d k=v w}\n> [!TIP]\n> *a* **b** ~~c~~ ^d^ ~e~ `f` $g$ $$h$$ <i> &amp; \\* j\\\nk  \nl\nm [^n]\n\n\
    [^n]: o\n\n3. p\n- [x] q\n- [ ] r\n\n***\n\n<div>\n</div>\n\n```rust\ns\n```\n\n    t\n\n|u|v|w|x|\n|-|:-|:-:|-:|\n|1|2|3|4|\n\n\
    y\n: z\n\n[A](B \"C\") ![D][E] [[F|G]] [[H]] <http://i.j> <k@l.m>\n\n[E]: <N O> 'P'\n";

/// All options but those that keep others from being read.
fn options() -> u32 {
    ((Options::all() - Options::ENABLE_OLD_FOOTNOTES) | Options::ENABLE_FOOTNOTES).library_bits()
}

/// All events of records, or the error.
fn decoded<'i>(source: &'i str, records: &[u8]) -> Result<Vec<Event<'i>>, Error> {
    let mut decoder = Decoder::new(source, records.to_vec(), records.len());
    let mut events = Vec::new();
    while let Some(event) = decoder.next()? {
        events.push(event);
    }
    Ok(events)
}

/// A record as bytes.
fn bytes(record: Record<'_>) -> Vec<u8> {
    let mut bytes = Vec::new();
    record.append_to(&mut bytes).unwrap();
    bytes
}

/// Asserts that a record of a text of three bytes is malformed, alone and after an event.
fn assert_malformed(record: Record<'_>) {
    let rule = Record {
        kind: kind::RULE,
        ..Record::default()
    };
    for records in [bytes(record), [bytes(rule), bytes(record)].concat()] {
        assert_eq!(
            decoded("abc", &records),
            Err(Error::Malformed),
            "{record:?}"
        );
    }
}

#[test]
fn the_text_has_each_kind_of_event() {
    let records = native::events(TEXT, options()).unwrap();
    let names: std::collections::BTreeSet<String> = decoded(TEXT, &records)
        .unwrap()
        .iter()
        .map(|event| {
            format!("{event:?}")
                .split([' ', '{'])
                .next()
                .unwrap()
                .to_owned()
        })
        .map(|name| name.split(')').next().unwrap().to_owned())
        .collect();
    for name in [
        "Start(Heading",
        "Start(BlockQuote(Some(Tip",
        "Start(CodeBlock(Fenced(Borrowed(\"rust\"",
        "Start(CodeBlock(Indented",
        "Start(HtmlBlock",
        "Start(List(Some(3",
        "Start(List(None",
        "Start(FootnoteDefinition(Inlined(\"n\"",
        "Start(DefinitionList",
        "Start(Table([None,",
        "Start(Link",
        "Start(Image",
        "Start(MetadataBlock(YamlStyle",
        "Code(Borrowed(\"f\"",
        "InlineMath(Borrowed(\"g\"",
        "DisplayMath(Borrowed(\"h\"",
        "InlineHtml(Borrowed(\"<i>\"",
        "FootnoteReference(Borrowed(\"n\"",
        "SoftBreak",
        "HardBreak",
        "Rule",
        "TaskListMarker(true",
        "TaskListMarker(false",
        "Start(Superscript",
        "Start(Subscript",
        "Start(Strikethrough",
        "Start(Emphasis",
        "Start(Strong",
    ] {
        assert!(names.contains(name), "{name} is not in {names:?}");
    }
}

#[test]
fn events_become_the_same_records() {
    let records = native::events(TEXT, options()).unwrap();
    let mut again = Vec::new();
    for event in decoded(TEXT, &records).unwrap() {
        encode::append(&mut again, &event).unwrap();
    }
    assert_eq!(decoded(TEXT, &again), decoded(TEXT, &records));
    assert_eq!(native::render(&again), native::render(&records));
    assert_eq!(native::render(&again), native::html(TEXT, options()));
}

#[test]
fn records_that_are_cut_short_are_malformed() {
    let records = native::events(TEXT, options()).unwrap();
    let (mut wholes, mut malformed) = (0, 0);
    for length in 0..records.len() {
        match decoded(TEXT, &records[..length]) {
            Ok(_) => wholes += 1,
            Err(error) => {
                assert_eq!(error, Error::Malformed);
                malformed += 1;
            }
        }
    }
    let events = decoded(TEXT, &records).unwrap();
    assert!(wholes >= events.len() && wholes < 2 * events.len());
    assert_eq!(wholes + malformed, records.len());
}

#[test]
fn changed_records_are_read_or_malformed() {
    let records = native::events(TEXT, options()).unwrap();
    let mut malformed = 0;
    for at in 0..records.len() {
        for byte in [0, 1, 7, 31, 127, 255] {
            let mut changed = records.clone();
            changed[at] = byte;
            if let Err(error) = decoded(TEXT, &changed) {
                assert_eq!(error, Error::Malformed);
                malformed += 1;
            }
        }
    }
    assert!(malformed > records.len());
}

#[test]
fn numbers_without_a_meaning_are_malformed() {
    let none = Record::default();
    for kind in [
        kind::FURTHER,
        kind::DEFINITION,
        kind::QUESTION,
        kind::ANSWER,
        17,
        255,
    ] {
        assert_malformed(Record { kind, ..none });
    }
    for (kind, tag, data) in [
        (kind::START, 0, 0),
        (kind::START, 25, 0),
        (kind::END, 0, 0),
        (kind::END, 25, 0),
        (kind::START, tag::HEADING, 0),
        (kind::START, tag::HEADING, 7),
        (kind::END, tag::HEADING, 7),
        (kind::START, tag::BLOCK_QUOTE, 6),
        (kind::END, tag::BLOCK_QUOTE, 6),
        (kind::START, tag::CODE_BLOCK, 2),
        (kind::START, tag::LIST, 2),
        (kind::END, tag::LIST, 2),
        (kind::START, tag::METADATA_BLOCK, 2),
        (kind::END, tag::METADATA_BLOCK, 2),
        (kind::TASK_LIST_MARKER, 0, 2),
    ] {
        assert_malformed(Record {
            kind,
            tag,
            data,
            ..none
        });
    }
    let table = Record {
        kind: kind::START,
        tag: tag::TABLE,
        ..none
    };
    assert_malformed(Record {
        text: &[4],
        ..table
    });
}

#[test]
fn further_records_that_are_missing_or_out_of_order_are_malformed() {
    let start = |tag, data| Record {
        kind: kind::START,
        tag,
        data,
        ..Record::default()
    };
    let further = |part| Record {
        tag: part,
        ..Record::default()
    };
    for records in [
        vec![start(tag::LIST, 1)],
        vec![start(tag::LIST, 1), further(part::TITLE)],
        vec![start(tag::LINK, 0)],
        vec![start(tag::LINK, 0), further(part::TITLE)],
        vec![
            start(tag::LINK, 0),
            further(part::LABEL),
            further(part::TITLE),
        ],
        vec![
            start(tag::LINK, 11),
            further(part::TITLE),
            further(part::LABEL),
        ],
        vec![start(tag::IMAGE, 0), further(part::LABEL)],
        vec![start(tag::HEADING, 1), further(part::TITLE)],
        vec![start(tag::HEADING, 1), further(part::ATTRIBUTE)],
        vec![
            start(tag::HEADING, 1),
            further(part::ATTRIBUTE),
            further(part::CLASS),
        ],
        vec![start(tag::HEADING, 1), further(part::VALUE)],
        vec![start(tag::PARAGRAPH, 0), further(part::TITLE)],
    ] {
        let all: Vec<u8> = records.iter().flat_map(|it| bytes(*it)).collect();
        assert_eq!(decoded("abc", &all), Err(Error::Malformed), "{records:?}");
    }
}

#[test]
fn ranges_and_texts_are_checked() {
    let text = Record {
        kind: kind::TEXT,
        end: 3,
        text: b"abc",
        ..Record::default()
    };
    assert_eq!(
        decoded("abc", &bytes(text)),
        Ok(vec![Event::Text("abc".into())])
    );
    assert_malformed(Record { end: 4, ..text });
    assert_malformed(Record {
        start: 2,
        end: 1,
        ..text
    });
    assert_malformed(Record {
        end: u64::MAX,
        ..text
    });
    assert_malformed(Record {
        text: &[0xff],
        ..text
    });
    let mut long = bytes(text);
    long[HEAD - 1] = 0x80;
    assert_eq!(decoded("abc", &long), Err(Error::Malformed));
    let mut unused = bytes(text);
    unused[5] = 1;
    assert_eq!(decoded("abc", &unused), Err(Error::Malformed));
}

#[test]
fn definitions_are_checked() {
    let definition = Record {
        kind: kind::DEFINITION,
        end: 3,
        text: b"/u",
        ..Record::default()
    };
    let label = Record {
        tag: part::LABEL,
        text: b"a",
        ..Record::default()
    };
    let both = [bytes(definition), bytes(label)].concat();
    assert!(definitions::decode("abc", &both)
        .unwrap()
        .get("A")
        .is_some());
    let past = [
        bytes(Record {
            end: 4,
            ..definition
        }),
        bytes(label),
    ]
    .concat();
    let event = bytes(Record {
        kind: kind::RULE,
        ..label
    });
    for records in [
        bytes(definition),
        bytes(label),
        past,
        event,
        both[..both.len() - 1].to_vec(),
    ] {
        assert_eq!(
            definitions::decode("abc", &records).err(),
            Some(Error::Malformed)
        );
    }
}
