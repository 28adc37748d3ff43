//! Tests of the parts that the programs share: runs whose reads and writes follow a list of outcomes.

ghost use Rattle.std.specs.Prelude.{◌≡◌, ◌++◌, codes};

use super::scripted::{Answer, Scripted};
use program_io::run::run;
use program_io::{PATIENCE, Render, RunFault, Watched, read_all, status};
use std::alloc::{AllocError, Global};
use std::test::Fail;

const HELLO: &[u8] = b"hello world";

const HELLO_OUTPUT: &[u8] = b"<p>hello world</p>\n";

/// Renders a text as one paragraph with the text as it is.
struct Paragraph;

impl Render for Paragraph {
    ghost renders = { λ paragraph text output. output ≡ codes "<p>" ++ (text ++ codes "</p>\n") };

    fn render(&self, alloc: Global, text: &str) -> Result<String, AllocError> {
        let mut output = String::new(alloc);
        output.push_str("<p>")?;
        output.push_str(text)?;
        output.push_str("</p>\n")?;
        Ok(output)
    }
}

/// The result of a run, and its output.
#[derive(Drop)]
struct Outcome {
    result: Result<(), RunFault>,
    written: Vec<u8>,
}

/// A run whose reads and writes have these outcomes.
fn run_on(
    alloc: Global,
    input: &[u8],
    reads: &[Answer],
    writes: &[Answer],
) -> Result<Outcome, AllocError> {
    let mut reader = Watched::new(Scripted::new(alloc, input, reads));
    let mut writer = Watched::new(Scripted::new(alloc, b"", writes));
    let result = run(alloc, &mut reader, &mut writer, &Paragraph);
    let written = writer.end().held.clone()?;
    Ok(Outcome { result, written })
}

/// The same outcome several times, and then another one.
fn after(
    alloc: Global,
    count: usize,
    answer: Answer,
    last: Answer,
) -> Result<Vec<Answer>, AllocError> {
    let mut answers = vec![in alloc; answer; count]?;
    answers.push(last)?;
    Ok(answers)
}

#[test]
fn writes_what_was_rendered(rt: HostRuntime) -> Result<(), Fail> {
    let cases: [(&[u8], &[u8]); 3] = [
        (HELLO, HELLO_OUTPUT),
        (b"", b"<p></p>\n"),
        (b"a\r\n\r\nb", b"<p>a\r\n\r\nb</p>\n"),
    ];
    let pieces = [
        Answer::Interrupted,
        Answer::Bytes(3),
        Answer::Interrupted,
        Answer::Bytes(4),
    ];
    for (input, output) in cases {
        let outcome = run_on(rt.alloc(), input, &[], &[])?;
        assert_eq!(rt; outcome.result, Ok(()));
        assert_eq!(rt; outcome.written.as_slice(), output);
        let outcome = run_on(rt.alloc(), input, &pieces, &pieces)?;
        assert_eq!(rt; outcome.written.as_slice(), output, "in pieces");
    }
    Ok(())
}

#[test]
fn refuses_what_is_no_text(rt: HostRuntime) -> Result<(), Fail> {
    let inputs: [&[u8]; 3] = [b"\xff", b"hello\xff", b"hello\xc3"];
    for input in inputs {
        let outcome = run_on(rt.alloc(), input, &[], &[])?;
        assert_eq!(rt; outcome.result, Err(RunFault::NotUtf8));
        assert_eq!(rt; outcome.written.as_slice(), b"".as_slice());
    }
    assert_eq!(rt; status(&RunFault::NotUtf8), 4);
    Ok(())
}

#[test]
fn writes_nothing_after_a_failed_read(rt: HostRuntime) -> Result<(), Fail> {
    // Eleven bytes in threes are four reads, and one more at the end.
    for reads in 0..6 {
        let answers = after(rt.alloc(), reads, Answer::Bytes(3), Answer::Failed)?;
        let outcome = run_on(rt.alloc(), HELLO, answers.as_slice(), &[])?;
        if reads < 5 {
            assert_eq!(rt; outcome.result, Err(RunFault::Read), "after {reads} reads");
            assert_eq!(rt; outcome.written.as_slice(), b"".as_slice());
        } else {
            assert_eq!(rt; outcome.result, Ok(()));
            assert_eq!(rt; outcome.written.as_slice(), HELLO_OUTPUT);
        }
    }
    Ok(())
}

#[test]
fn writes_a_beginning_before_a_failed_write(rt: HostRuntime) -> Result<(), Fail> {
    // Nineteen bytes in threes are seven writes, and then comes the flush.
    for writes in 0..9 {
        let answers = after(rt.alloc(), writes, Answer::Bytes(3), Answer::Failed)?;
        let outcome = run_on(rt.alloc(), HELLO, &[], answers.as_slice())?;
        let written = (3 * writes).min(19);
        assert_eq!(rt;
            outcome.written.as_slice(),
            &HELLO_OUTPUT[..written],
            "after {writes} writes"
        );
        let result = if writes < 8 {
            Err(RunFault::Write)
        } else {
            Ok(())
        };
        assert_eq!(rt; outcome.result, result, "after {writes} writes");
    }
    Ok(())
}

#[test]
fn takes_no_empty_write_for_progress(rt: HostRuntime) -> Result<(), Fail> {
    let answers = [Answer::Bytes(3), Answer::Bytes(0)];
    let outcome = run_on(rt.alloc(), HELLO, &[], &answers)?;
    assert_eq!(rt; outcome.result, Err(RunFault::Write));
    assert_eq!(rt; outcome.written.as_slice(), b"<p>".as_slice());
    Ok(())
}

#[test]
fn takes_an_interrupted_flush_for_a_failure(rt: HostRuntime) -> Result<(), Fail> {
    let answers = [Answer::Bytes(19), Answer::Interrupted];
    let outcome = run_on(rt.alloc(), HELLO, &[], &answers)?;
    assert_eq!(rt; outcome.result, Err(RunFault::Write));
    assert_eq!(rt; outcome.written.as_slice(), HELLO_OUTPUT);
    Ok(())
}

/// A run that begins with `reads` interrupted reads and `writes` interrupted writes; the next of each moves two bytes.
fn interrupted(
    alloc: Global,
    reads: usize,
    writes: usize,
) -> Result<Outcome, AllocError> {
    let reads = after(alloc, reads, Answer::Interrupted, Answer::Bytes(2))?;
    let writes = after(alloc, writes, Answer::Interrupted, Answer::Bytes(2))?;
    run_on(alloc, HELLO, reads.as_slice(), writes.as_slice())
}

#[test]
fn has_patience_with_reads(rt: HostRuntime) -> Result<(), Fail> {
    let outcome = interrupted(rt.alloc(), PATIENCE as usize - 1, 0)?;
    assert_eq!(rt; outcome.result, Ok(()));
    assert_eq!(rt; outcome.written.as_slice(), HELLO_OUTPUT);
    Ok(())
}

#[test]
fn has_patience_with_writes(rt: HostRuntime) -> Result<(), Fail> {
    let outcome = interrupted(rt.alloc(), 0, PATIENCE as usize - 1)?;
    assert_eq!(rt; outcome.result, Ok(()));
    assert_eq!(rt; outcome.written.as_slice(), HELLO_OUTPUT);
    Ok(())
}

#[test]
fn loses_patience_with_reads(rt: HostRuntime) -> Result<(), Fail> {
    let outcome = interrupted(rt.alloc(), PATIENCE as usize, 0)?;
    assert_eq!(rt; outcome.result, Err(RunFault::Read));
    assert_eq!(rt; outcome.written.as_slice(), b"".as_slice());
    Ok(())
}

#[test]
fn loses_patience_with_writes(rt: HostRuntime) -> Result<(), Fail> {
    let outcome = interrupted(rt.alloc(), 0, PATIENCE as usize)?;
    assert_eq!(rt; outcome.result, Err(RunFault::Write));
    assert_eq!(rt; outcome.written.as_slice(), b"".as_slice());
    Ok(())
}

#[test]
fn notes_start_afresh(rt: HostRuntime) -> Result<(), Fail> {
    let failing = [Answer::Failed];
    let mut reader = Watched::new(Scripted::new(rt.alloc(), HELLO, &failing));
    let mut writer = Watched::new(Scripted::new(rt.alloc(), b"", &[]));
    let result = run(rt.alloc(), &mut reader, &mut writer, &Paragraph);
    assert_eq!(rt; result, Err(RunFault::Read));
    assert!(rt; reader.notes().failed);
    let result = run(rt.alloc(), &mut reader, &mut writer, &Paragraph);
    assert_eq!(rt; result, Ok(()));
    assert!(rt; !reader.notes().failed && reader.notes().ended && writer.notes().ended);
    assert_eq!(rt; reader.resets(), 2);
    Ok(())
}

#[test]
fn reads_up_to_the_limit(rt: HostRuntime) -> Result<(), Fail> {
    let mut reader = Watched::new(Scripted::new(rt.alloc(), b"abc", &[]));
    let bytes = read_all(rt.alloc(), &mut reader, 3)?;
    assert_eq!(rt; bytes.as_slice(), b"abc".as_slice());
    assert_eq!(rt; reader.notes().moved, 3);
    let pieces = [Answer::Bytes(2), Answer::Bytes(1), Answer::Bytes(1)];
    let mut reader = Watched::new(Scripted::new(rt.alloc(), b"abcd", &pieces));
    assert!(rt; read_all(rt.alloc(), &mut reader, 3).is_err());
    assert!(rt; !reader.notes().failed);
    assert_eq!(rt; reader.notes().moved, 4);
    Ok(())
}

#[test]
fn reads_more_than_one_chunk(rt: HostRuntime) -> Result<(), Fail> {
    let input = vec![in rt.alloc(); b'a'; 200_000]?;
    let mut reader = Watched::new(Scripted::new(rt.alloc(), input.as_slice(), &[]));
    let bytes = read_all(rt.alloc(), &mut reader, 200_000)?;
    assert_eq!(rt; bytes.as_slice(), input.as_slice());
    Ok(())
}

#[test]
fn says_each_fault(rt: HostRuntime) -> Result<(), Fail> {
    let cases = [
        (RunFault::Memory, 1, "out of memory", 1),
        (RunFault::Read, 2, "read failed", 1),
        (RunFault::NotUtf8, 3, "input is not UTF-8", 4),
        (RunFault::Entities, 4, "bad entity file", 3),
        (RunFault::Write, 5, "write failed", 1),
    ];
    for (fault, number, line, wanted) in cases {
        let shown = format!(in rt.alloc(); "{fault}")?;
        assert_eq!(rt; shown.as_str(), line);
        assert_eq!(rt; status(&fault), wanted);
        assert_eq!(rt; fault as u8, number);
    }
    Ok(())
}
