//! The questions that a callback is asked, and its answers.
//!
//! The library takes no callback. It takes the answers that are known, and returns the questions that it put beside the events. So a text
//! is read again after new answers.

use crate::decode::{self, Decoder};
use crate::encode;
use crate::lend;
use crate::native;
use crate::record::{kind, part, Record, Records};
use crate::{BrokenLink, BrokenLinkCallback, Error, LinkType};
use std::collections::HashSet;

/// How often a text is read for the answers of a callback. In a text such as `[a][]` many times in a row each answer leads to one new
/// question alone. Reading it until no question is left would take quadratic time.
const MOST_READINGS: usize = 16;

/// The answers of a callback so far.
#[derive(Debug, Default)]
pub(crate) struct Answers {
    /// The destinations and titles that it returned, as the library takes them.
    records: Vec<u8>,
    /// The start and the end of each link that it was asked about.
    asked: HashSet<(usize, usize)>,
}

impl Answers {
    /// Reads a text, and asks the callback until no answer is new, or until the text was read often enough. After an error the answers so far
    /// are kept.
    pub fn read<'i, F: BrokenLinkCallback<'i>>(
        &mut self,
        text: &'i str,
        options: u32,
        callback: &mut F,
    ) -> Result<Decoder<'i>, Error> {
        let mut reading = 1;
        loop {
            let records = native::events_answered(text, options, &self.records)?;
            let end = end_of_events(&records)?;
            if reading == MOST_READINGS || !self.ask(text, &records[end..], callback)? {
                return Ok(Decoder::new(text, records, end));
            }
            reading += 1;
        }
    }

    /// Asks the questions that are new, in order. Returns whether there was an answer.
    ///
    /// A link around or after the brackets of a link that was just answered may be no link any more. Its question waits for the next
    /// reading. An image may have links inside, so it need not wait.
    fn ask<'i, F: BrokenLinkCallback<'i>>(
        &mut self,
        text: &'i str,
        questions: &[u8],
        callback: &mut F,
    ) -> Result<bool, Error> {
        let (mut questions, mut answered_to) = (Records::of(questions), 0);
        while let Some(question) = questions.next()? {
            let link = broken_link(&question, text)?;
            let (start, end) = (link.span.start, link.span.end);
            let is_image = text.as_bytes().get(start) == Some(&b'!');
            // The span of `[a][]` ends before the empty brackets.
            let following = if link.link_type == LinkType::Collapsed {
                "[]".len()
            } else {
                0
            };
            if start < answered_to && !is_image {
                continue;
            }
            self.asked.try_reserve(1)?;
            if !self.asked.insert((start, end)) {
                continue;
            }
            if let Some((destination, title)) = callback.handle_broken_link(link) {
                let answer = Record {
                    kind: kind::ANSWER,
                    data: 1,
                    text: destination.as_bytes(),
                    ..question
                };
                self.push(&answer, &title)?;
                answered_to = answered_to.max(end + following);
            }
        }
        Ok(answered_to > 0)
    }

    /// Appends an answer, or nothing if memory is refused; then the callback will be asked again.
    fn push(&mut self, answer: &Record<'_>, title: &str) -> Result<(), Error> {
        let before = self.records.len();
        let pushed = answer
            .append_to(&mut self.records)
            .and_then(|()| encode::append_part(&mut self.records, part::TITLE, title));
        if pushed.is_err() {
            self.records.truncate(before);
            self.asked
                .remove(&(answer.start as usize, answer.end as usize));
        }
        pushed
    }
}

/// The number of bytes of the records before the first question.
fn end_of_events(bytes: &[u8]) -> Result<usize, Error> {
    let mut records = Records::of(bytes);
    let mut end = 0;
    while let Some(record) = records.next()? {
        if record.kind == kind::QUESTION {
            break;
        }
        end = bytes.len() - records.len();
    }
    Ok(end)
}

/// The link that a question is about.
fn broken_link<'i>(question: &Record<'_>, text: &'i str) -> Result<BrokenLink<'i>, Error> {
    if question.kind != kind::QUESTION {
        return Err(Error::Malformed);
    }
    let span = decode::range(question, text)?;
    Ok(BrokenLink {
        link_type: match decode::link_type(question.data)? {
            LinkType::ReferenceUnknown => LinkType::Reference,
            LinkType::CollapsedUnknown => LinkType::Collapsed,
            LinkType::ShortcutUnknown => LinkType::Shortcut,
            _ => return Err(Error::Malformed),
        },
        reference: lend::text(text, &span, question.text)?,
        span,
    })
}

#[cfg(test)]
mod tests {
    use super::*;
    use crate::{html, CowStr, Options, Parser};

    /// A sequence of numbers that looks random and is the same each time.
    struct Numbers(u64);

    impl Numbers {
        fn below(&mut self, bound: u64) -> u64 {
            self.0 ^= self.0 << 13;
            self.0 ^= self.0 >> 7;
            self.0 ^= self.0 << 17;
            self.0 % bound
        }
    }

    /// A text of brackets and labels.
    fn text(numbers: &mut Numbers) -> String {
        let pieces = [
            "[a]", "[b]", "[", "]", "![", "[]", "[c", "(d)", "*", " ", "[[", "]]", "|", "`", "\n",
            "\n\n", "[e]: f\n", "[e]",
        ];
        let count = 2 + numbers.below(14);
        (0..count)
            .map(|_| pieces[numbers.below(pieces.len() as u64) as usize])
            .collect()
    }

    /// A callback that answers some links, by a rule that depends on `seed` and on the link's range alone.
    fn reply<'i>(seed: u64, link: &BrokenLink<'i>) -> Option<(CowStr<'i>, CowStr<'i>)> {
        let mut numbers =
            Numbers(seed * 1_000_003 + link.span.start as u64 * 1_009 + link.span.end as u64 + 1);
        let _ = (numbers.below(2), numbers.below(2));
        (numbers.below(2) == 0).then(|| ("/u".into(), "".into()))
    }

    /// The questions of a reading with these answers.
    fn questions(text: &str, options: u32, answers: &Answers) -> Vec<(usize, usize)> {
        let records = native::events_answered(text, options, &answers.records).unwrap();
        let mut questions = Records::of(&records[end_of_events(&records).unwrap()..]);
        std::iter::from_fn(|| questions.next().unwrap())
            .map(|it| (it.start as usize, it.end as usize))
            .collect()
    }

    /// The questions that a callback is asked if each is put only after all answers before it, as pulldown-cmark puts them.
    fn in_turn(seed: u64, text: &str, options: u32) -> Vec<(usize, usize)> {
        let mut answers = Answers::default();
        let mut asked = Vec::new();
        loop {
            let records = native::events_answered(text, options, &answers.records).unwrap();
            let mut questions = Records::of(&records[end_of_events(&records).unwrap()..]);
            let next = std::iter::from_fn(|| questions.next().unwrap())
                .find(|it| !asked.contains(&(it.start as usize, it.end as usize)));
            let Some(question) = next else { return asked };
            let link = broken_link(&question, text).unwrap();
            asked.push((link.span.start, link.span.end));
            if let Some((destination, title)) = reply(seed, &link) {
                let answer = Record {
                    kind: kind::ANSWER,
                    data: 1,
                    text: destination.as_bytes(),
                    ..question
                };
                answers.push(&answer, &title).unwrap();
            }
        }
    }

    #[test]
    fn the_questions_are_those_that_are_put_in_turn() {
        let mut numbers = Numbers(20_261_129);
        let (mut answered, mut further) = (0, 0);
        for seed in 1..4000 {
            let text = text(&mut numbers);
            for options in [
                Options::empty(),
                Options::all() - Options::ENABLE_WIKILINKS,
                Options::all(),
            ] {
                let (mut answers, mut asked) = (Answers::default(), Vec::new());
                let mut callback = |link: BrokenLink<'_>| {
                    asked.push((link.span.start, link.span.end));
                    let found = reply(seed, &link)?;
                    answered += 1;
                    Some((found.0.into_static(), found.1.into_static()))
                };
                answers
                    .read(&text, options.library_bits(), &mut callback)
                    .unwrap();
                asked.sort_unstable();
                let mut last = questions(&text, options.library_bits(), &answers);
                last.sort_unstable();
                let mut turns = in_turn(seed, &text, options.library_bits());
                turns.sort_unstable();
                assert_eq!(last, turns, "{text:?}");
                if options.contains(Options::ENABLE_WIKILINKS) {
                    further += asked.len() - last.len();
                    asked.retain(|it| last.contains(it));
                }
                assert_eq!(asked, last, "{text:?}");
            }
        }
        // See `Parser::new_with_broken_link_callback` for the further questions.
        assert!(further < answered / 100, "{further} of {answered}");
        assert!(answered > 2000);
    }

    #[test]
    fn a_text_in_which_each_answer_leads_to_one_question_is_read_a_few_times() {
        let mut asked = 0;
        let mut callback = |_: BrokenLink<'_>| {
            asked += 1;
            Some(("/x".into(), "".into()))
        };
        let text = "[b][]".repeat(3000);
        let parser =
            Parser::new_with_broken_link_callback(&text, Options::empty(), Some(&mut callback));
        let mut out = String::new();
        html::push_html(&mut out, parser);
        let links = out.matches("<a href").count();
        assert!(2900 < links && asked < 3050, "{links} {asked}");
    }

    #[test]
    fn a_link_around_an_answered_link_is_not_asked_about() {
        let mut asked = Vec::new();
        let mut callback = |link: BrokenLink<'_>| {
            asked.push(link.reference.to_string());
            Some(("/u".into(), "".into()))
        };
        let text = "[a [b] c][d] ![e [f] g][h][i]";
        let parser =
            Parser::new_with_broken_link_callback(text, Options::empty(), Some(&mut callback));
        let mut out = String::new();
        html::push_html(&mut out, parser);
        assert_eq!(
            out,
            "<p>[a <a href=\"/u\">b</a> c]<a href=\"/u\">d</a> <img src=\"/u\" alt=\"e f g\" /><a href=\"/u\">i</a></p>\n"
        );
        assert_eq!(asked, ["b", "f", "h", "d", "i"]);
    }

    #[test]
    fn a_callback_that_returns_nothing_is_asked_in_one_reading() {
        let mut asked = 0;
        let mut callback = |_: BrokenLink<'_>| {
            asked += 1;
            None
        };
        let mut answers = Answers::default();
        let text = "[a][b][c]";
        let bits = Options::empty().library_bits();
        answers.read(text, bits, &mut callback).unwrap();
        assert_eq!((asked, answers.records.len()), (2, 0));
    }
}
