//! Runs of the program's own `run`, whose reads and writes follow a list of outcomes.

ghost use Rattle.std.specs.Prelude.{◌≡◌};

use super::scripted::{Answer, Scripted};
use bitflags::Flags;
use program_io::{RunFault, Watched};
use mdhtml_run::{run, run_filtered};
use pulldown_cmark::{BasicEntities, Options};
use std::alloc::{AllocError, Global};
use std::test::Fail;

const TEXT: &[u8] = b"# a\n\n- *b* [c](d)\n- `e`\n";

const HTML: &[u8] =
    b"<h1>a</h1>\n<ul>\n<li><em>b</em> <a href=\"d\">c</a></li>\n<li><code>e</code></li>\n</ul>\n";

/// The result of a run, and its output.
#[derive(Drop)]
struct Outcome {
    result: Result<(), RunFault>,
    written: Vec<u8>,
}

/// A run whose reads and writes have these outcomes.
fn run_on(
    alloc: Global,
    input: &[u8],
    reads: &[Answer],
    writes: &[Answer],
) -> Result<Outcome, AllocError> {
    let mut reader = Watched::new(Scripted::new(alloc, input, reads));
    let mut writer = Watched::new(Scripted::new(alloc, b"", writes));
    let result = run(alloc, &mut reader, &mut writer, Options::empty(), &BasicEntities);
    let written = writer.end().held.clone()?;
    Ok(Outcome { result, written })
}

/// The same outcome several times, and then another one.
fn after(
    alloc: Global,
    count: usize,
    answer: Answer,
    last: Answer,
) -> Result<Vec<Answer>, AllocError> {
    let mut answers = vec![in alloc; answer; count]?;
    answers.push(last)?;
    Ok(answers)
}

#[test]
fn writes_safe_html_if_that_is_asked_for(rt: HostRuntime) -> Result<(), Fail> {
    for safe in [false, true] {
        let mut reader = Watched::new(Scripted::new(rt.alloc(), b"<b>[a](javascript:c)", &[]));
        let mut writer = Watched::new(Scripted::new(rt.alloc(), b"", &[]));
        let result = run_filtered(rt.alloc(), &mut reader, &mut writer, Options::empty(), &BasicEntities, safe);
        assert_eq!(rt; result, Ok(()));
        let html = if safe {
            b"<p>&lt;b&gt;<a href=\"\">a</a></p>\n".as_slice()
        } else {
            b"<p><b><a href=\"javascript:c\">a</a></p>\n".as_slice()
        };
        assert_eq!(rt; writer.end().held.as_slice(), html);
    }
    Ok(())
}

#[test]
fn writes_the_html_byte_by_byte(rt: HostRuntime) -> Result<(), Fail> {
    let single = vec![in rt.alloc(); Answer::Bytes(1); HTML.len()]?;
    let outcome = run_on(rt.alloc(), TEXT, single.as_slice(), single.as_slice())?;
    assert_eq!(rt; outcome.result, Ok(()));
    assert_eq!(rt; outcome.written.as_slice(), HTML);
    Ok(())
}

#[test]
fn each_read_that_fails_leaves_nothing(rt: HostRuntime) -> Result<(), Fail> {
    // A read for each byte, and one more at the end.
    for reads in 0..TEXT.len() + 2 {
        let answers = after(rt.alloc(), reads, Answer::Bytes(1), Answer::Failed)?;
        let outcome = run_on(rt.alloc(), TEXT, answers.as_slice(), &[])?;
        if reads <= TEXT.len() {
            assert_eq!(rt; outcome.result, Err(RunFault::Read), "after {reads} reads");
            assert_eq!(rt; outcome.written.as_slice(), b"".as_slice());
        } else {
            assert_eq!(rt; outcome.result, Ok(()));
            assert_eq!(rt; outcome.written.as_slice(), HTML);
        }
    }
    Ok(())
}

#[test]
fn each_write_that_fails_leaves_a_beginning(rt: HostRuntime) -> Result<(), Fail> {
    // A write for each byte, and then the flush.
    for writes in 0..HTML.len() + 2 {
        for last in [Answer::Failed, Answer::Bytes(0)] {
            let answers = after(rt.alloc(), writes, Answer::Bytes(1), last)?;
            let outcome = run_on(rt.alloc(), TEXT, &[], answers.as_slice())?;
            let count = writes.min(HTML.len());
            assert_eq!(rt; outcome.written.as_slice(), &HTML[..count], "after {writes} writes");
            let fails = match last {
                Answer::Failed => writes <= HTML.len(),
                _ => writes < HTML.len(),
            };
            let result = if fails { Err(RunFault::Write) } else { Ok(()) };
            assert_eq!(rt; outcome.result, result, "after {writes} writes");
        }
    }
    Ok(())
}

#[test]
fn an_interrupted_flush_fails(rt: HostRuntime) -> Result<(), Fail> {
    let answers = [Answer::Bytes(HTML.len()), Answer::Interrupted];
    let outcome = run_on(rt.alloc(), TEXT, &[], &answers)?;
    assert_eq!(rt; outcome.result, Err(RunFault::Write));
    assert_eq!(rt; outcome.written.as_slice(), HTML);
    Ok(())
}

#[test]
fn bears_a_million_interruptions_and_no_more(rt: HostRuntime) -> Result<(), Fail> {
    let enough = after(rt.alloc(), 1_048_575, Answer::Interrupted, Answer::Bytes(2))?;
    let outcome = run_on(rt.alloc(), TEXT, enough.as_slice(), enough.as_slice())?;
    assert_eq!(rt; outcome.result, Ok(()));
    assert_eq!(rt; outcome.written.as_slice(), HTML);
    let too_many = after(rt.alloc(), 1_048_576, Answer::Interrupted, Answer::Bytes(2))?;
    let outcome = run_on(rt.alloc(), TEXT, too_many.as_slice(), &[])?;
    assert_eq!(rt; outcome.result, Err(RunFault::Read));
    assert_eq!(rt; outcome.written.as_slice(), b"".as_slice());
    let outcome = run_on(rt.alloc(), TEXT, &[], too_many.as_slice())?;
    assert_eq!(rt; outcome.result, Err(RunFault::Write));
    assert_eq!(rt; outcome.written.as_slice(), b"".as_slice());
    Ok(())
}

#[test]
fn writes_nothing_where_the_last_bytes_are_no_text(rt: HostRuntime) -> Result<(), Fail> {
    let mut input = vec![in rt.alloc(); b'a'; 100_000]?;
    input.push(0xff)?;
    let outcome = run_on(rt.alloc(), input.as_slice(), &[], &[])?;
    assert_eq!(rt; outcome.result, Err(RunFault::NotUtf8));
    assert_eq!(rt; outcome.written.as_slice(), b"".as_slice());
    Ok(())
}
