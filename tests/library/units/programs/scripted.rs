//! A reader and writer whose calls follow a list of outcomes, and whose bytes are visible.

ghost use Rattle.std.specs.Prelude.{◌≡◌, Some, []};

use std::alloc::Global;
use std::io;
use std::io::{ErrorKind, Read, Write};

/// The outcome of a call.
#[derive(Clone, Copy)]
pub enum Answer {
    /// It moves at most this number of bytes. A read moves at least one byte, unless it is at the end.
    Bytes(usize),
    /// It is interrupted, and moves no byte.
    Interrupted,
    /// It fails, and moves no byte.
    Failed,
}

/// A reader of `input` and a writer into `held`. After the list of outcomes is used up, each call moves all that it can.
#[derive(Drop)]
pub struct Scripted<'a> {
    /// The bytes that are left to read.
    pub input: &'a [u8],
    /// The bytes that were written.
    pub held: Vec<u8>,
    answers: &'a [Answer],
    next: usize,
}

impl<'a> Scripted<'a> {
    /// A reader of `input`, and a writer that holds nothing, with an outcome for each of the first calls.
    pub fn new(alloc: Global, input: &'a [u8], answers: &'a [Answer]) -> Scripted<'a>
        ensures input { result.input.now ≡ input.now }
        ensures held { result.held.items ≡ [] }
    {
        Scripted {
            input,
            held: Vec::new(alloc),
            answers,
            next: 0,
        }
    }

    /// The most bytes that the next call moves.
    fn answer(&mut self) -> io::Result<usize>
        ensures input { self.new.input.now ≡ self.old.input.now }
        ensures held { self.new.held.items ≡ self.old.held.items }
    {
        let Some(answer) = self.answers.get(self.next) else {
            return Ok(usize::MAX);
        };
        let answer = *answer;
        self.next = self.next.saturating_add(1);
        match answer {
            Answer::Bytes(count) => Ok(count),
            Answer::Interrupted => Err(io::Error::from(ErrorKind::Interrupted)),
            Answer::Failed => Err(io::Error::from(ErrorKind::BrokenPipe)),
        }
    }
}

impl<'a> Read for Scripted<'a> {
    ghost remaining = { λ scripted. Some scripted.input.now };

    fn read(&mut self, buf: &mut [u8]) -> io::Result<usize> {
        let count = self.answer()?.max(1).min(self.input.len()).min(buf.len());
        buf[..count].copy_from_slice(&self.input[..count]);
        self.input = &self.input[count..];
        Ok(count)
    }
}

impl<'a> Write for Scripted<'a> {
    ghost contents = { λ scripted. Some scripted.held.items };

    fn write(&mut self, buf: &[u8]) -> io::Result<usize> {
        let count = self.answer()?.min(buf.len());
        self.held.extend_from_slice(&buf[..count])?;
        Ok(count)
    }

    fn flush(&mut self) -> io::Result<()> {
        self.answer()?;
        Ok(())
    }
}
