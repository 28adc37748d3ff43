// How much of a text that grows is not settled. A refresh reads the text of the last tail again, with the chunks since then. So the tails of
// all refreshes together are counted, in bytes of HTML for each byte of the text.

use bitflags::Flags;
use cmark_stream::Stream;
use cmark_values::{BasicEntities, Options};
use std::alloc::Global;
use std::test::Fail;

const LIMIT: usize = 100_000;
// The bytes of a chunk, and how often a piece is repeated: each text has some thousand bytes.
const CHUNK: usize = 20;
const TIMES: usize = 500;
// The most bytes of tails for each byte of a text whose blocks end. If nothing settles, the texts have more than 80.
const BOUND: usize = 8;
// The same if only refreshes that are due are made. Of these texts they read at most 18 bytes for each byte, and the texts have at most three
// bytes of HTML for each byte.
const DUE: usize = 54;

// Pieces in which blocks end. After a table, a list or a fence a further block is settled too.
const ENDED: &[&str] = &[
    "Some *words* of a paragraph.\n\n",
    "# A heading\n",
    "```\ncode\n```\n",
    "- a\n- b\n\nc d e f g\n\n",
    "a|b\n-|-\nc|d\n\ne f g\n\n",
    "> a b\n\nc d e f g\n\n",
    "[a] b c d\n\n",
    "<div>\na\n</div>\n\n",
    "    a b c\n\nd e f\n\n",
    "# A heading\n\nA paragraph, and a table:\n\n| a | b |\n|---|---|\n| c | d |\n\n1. A list,\n2. with items\n\n```\nand code\n```\n\n",
];

// Pieces of texts of one block, in which nothing is settled.
const ONE_BLOCK: &[&str] = &["- item\n", "> words of a quote\n", "words and ", "    let code = 1;\n"];

// The refreshes of a text that grows.
#[derive(Clone, Copy)]
enum Refreshes {
    Each,
    Due,
}

// The bytes of the tails after each chunk of a repeated piece, for each byte of the text.
fn tails(alloc: Global, piece: &str, refreshes: Refreshes) -> Result<usize, Fail> {
    let mut whole = String::new(alloc);
    for _ in 0..TIMES {
        whole.push_str(piece)?;
    }
    let mut stream = Stream::new(alloc, Options::GITHUB, &BasicEntities, LIMIT);
    let (mut from, mut sum) = (0usize, 0usize);
    while from < whole.len() {
        let to = (from + CHUNK).min(whole.len());
        let Some(chunk) = whole.get(from..to) else {
            break;
        };
        stream.push(chunk)?;
        let is_due = match refreshes {
            Refreshes::Each => true,
            Refreshes::Due => stream.is_due() || to == whole.len(),
        };
        if is_due {
            stream.refresh()?;
            sum += stream.tail().len();
        }
        from = to;
    }
    Ok(sum / whole.len())
}

#[test]
fn blocks_that_end_are_settled(rt: HostRuntime) -> Result<(), Fail> {
    for piece in ENDED {
        let sum = tails(rt.alloc(), *piece, Refreshes::Each)?;
        println!(rt; "{} bytes of tails for each byte", sum)?;
        assert!(rt; sum <= BOUND);
    }
    Ok(())
}

// docs/PERFORMANCE.md says that nothing is settled in these.
#[test]
fn one_block_is_a_tail(rt: HostRuntime) -> Result<(), Fail> {
    for piece in ONE_BLOCK {
        let sum = tails(rt.alloc(), *piece, Refreshes::Each)?;
        println!(rt; "{} bytes of tails for each byte of one block", sum)?;
        assert!(rt; sum > DUE);
    }
    Ok(())
}

#[test]
fn refreshes_that_are_due_read_little(rt: HostRuntime) -> Result<(), Fail> {
    for pieces in [ENDED, ONE_BLOCK, &["[a]: /b\n\n[a] c\n\n"]] {
        for piece in pieces {
            let sum = tails(rt.alloc(), *piece, Refreshes::Due)?;
            println!(rt; "{} bytes of tails for each byte, if due", sum)?;
            assert!(rt; sum <= DUE);
        }
    }
    Ok(())
}

#[test]
fn the_last_line_is_not_settled(rt: HostRuntime) -> Result<(), Fail> {
    let mut stream = Stream::new(rt.alloc(), Options::empty(), &BasicEntities, LIMIT);
    stream.push("# Bread\n\nFlour and *wa")?;
    stream.refresh()?;
    assert_eq!(rt; stream.settled(), "");
    assert_eq!(rt; stream.tail(), "<h1>Bread</h1>\n<p>Flour and *wa</p>\n");
    stream.push("ter*\n\n")?;
    stream.refresh()?;
    assert_eq!(rt; stream.settled(), "<h1>Bread</h1>\n");
    assert_eq!(rt; stream.tail(), "<p>Flour and <em>water</em></p>\n");
    Ok(())
}
