//! Tests of emphasis and quotes, with ample memory. The examples are from CommonMark 6.2 unless a comment says otherwise.

use bitflags::Flags;
use cmark_emphasis::{
    Flanking, Pair, PlacedRun, Run, SpanKind, flanking_of, innermost, pair_runs, pair_two,
    quote_characters, quote_of,
};
use cmark_text::Options;
use std::alloc::{AllocError, Global};
use std::test::Fail;

/// A run of `run_length` bytes, the first of which has the slot `slot`. It either opens or closes.
fn placed(delimiter: u8, slot: usize, run_length: usize, opens: bool) -> PlacedRun {
    PlacedRun {
        slot,
        run_length,
        delimiter,
        opens,
        closes: !opens,
    }
}

/// `***a** b*`
fn nested() -> [PlacedRun; 3] {
    [
        placed(b'*', 0, 3, true),
        placed(b'*', 4, 2, false),
        placed(b'*', 8, 1, false),
    ]
}

/// `~~a~.~~`, in which the single tilde makes the double ones inactive (this profile's own).
fn shut() -> [PlacedRun; 3] {
    [
        placed(b'~', 0, 2, true),
        placed(b'~', 3, 1, false),
        placed(b'~', 5, 2, false),
    ]
}

/// The pairs of some runs, with a stack that others used before.
fn pairs_of(
    alloc: Global,
    runs: &[PlacedRun],
    stack: &mut Vec<Run>,
) -> Result<Vec<Pair>, AllocError> {
    let mut pairs = Vec::new(alloc);
    pair_runs(runs, stack, &mut pairs, &mut 0)?;
    Ok(pairs)
}

/// Whether these are the two pairs of `nested`: the inner two bytes, and then the outer one.
fn are_nested(pairs: &[Pair]) -> bool {
    let [inner, outer] = pairs else {
        return false;
    };
    (inner.delimiter, inner.from, inner.to, inner.count) == (b'*', 3, 4, 2)
        && (outer.delimiter, outer.from, outer.to, outer.count) == (b'*', 1, 8, 1)
}

#[test]
fn strong_inside_emphasis(rt: HostRuntime) -> Result<(), Fail> {
    let mut stack = Vec::new(rt.alloc());
    let pairs = pairs_of(rt.alloc(), &nested(), &mut stack)?;
    assert!(rt; are_nested(&pairs));
    assert!(rt; innermost(b'*', 2) == SpanKind::Strong);
    assert!(rt; innermost(b'*', 1) == SpanKind::Emphasis);
    Ok(())
}

#[test]
fn a_stack_serves_again(rt: HostRuntime) -> Result<(), Fail> {
    let mut stack = Vec::new(rt.alloc());
    let first = pairs_of(rt.alloc(), &nested(), &mut stack)?;
    assert!(rt; are_nested(&first));
    let inactive = pairs_of(rt.alloc(), &shut(), &mut stack)?;
    assert!(rt; inactive.is_empty());
    let again = pairs_of(rt.alloc(), &nested(), &mut stack)?;
    assert!(rt; are_nested(&again));
    Ok(())
}

#[test]
fn two_runs_make_a_pair(rt: HostRuntime) -> Result<(), Fail> {
    // `**a*`
    let mut examined = 0;
    let pair = pair_two(
        placed(b'*', 0, 2, true),
        placed(b'*', 3, 1, false),
        &mut examined,
    );
    let Some(pair) = pair else {
        assert!(rt; false);
        return Ok(());
    };
    assert_eq!(rt; (pair.from, pair.to, pair.count), (2, 3, 1));
    assert_eq!(rt; examined, 1);
    // `*a_`
    let other = pair_two(
        placed(b'*', 0, 1, true),
        placed(b'_', 2, 1, false),
        &mut examined,
    );
    assert!(rt; other.is_none());
    Ok(())
}

/// Whether a run can open and close.
fn can(flanking: Flanking) -> (bool, bool) {
    (flanking.opens, flanking.closes)
}

#[test]
fn runs_beside_characters(rt: HostRuntime) -> Result<(), Fail> {
    let none = Options::empty();
    assert_eq!(rt;
        can(flanking_of(none, b'*', 1, None, Some('f'))),
        (true, false)
    );
    assert_eq!(rt;
        can(flanking_of(none, b'*', 1, Some(' '), Some(' '))),
        (false, false)
    );
    assert_eq!(rt;
        can(flanking_of(none, b'*', 1, Some('a'), Some('"'))),
        (false, true)
    );
    assert_eq!(rt;
        can(flanking_of(none, b'*', 1, None, Some('\u{a0}'))),
        (false, false)
    );
    assert_eq!(rt;
        can(flanking_of(none, b'*', 1, Some('e'), Some('\u{20ac}'))),
        (false, true)
    );
    assert_eq!(rt;
        can(flanking_of(none, b'*', 2, Some('o'), Some('b'))),
        (true, true)
    );
    assert_eq!(rt;
        can(flanking_of(none, b'_', 2, Some('o'), Some('b'))),
        (false, false)
    );
    assert_eq!(rt;
        can(flanking_of(none, b'_', 1, Some('-'), Some('('))),
        (true, true)
    );
    Ok(())
}

#[test]
fn runs_of_tildes_beside_a_letter(rt: HostRuntime) -> Result<(), Fail> {
    let none = Options::empty();
    assert_eq!(rt;
        can(flanking_of(none, b'~', 2, None, Some('f'))),
        (false, false)
    );
    assert_eq!(rt;
        can(flanking_of(Options::ENABLE_STRIKETHROUGH, b'~', 2, None, Some('f'))),
        (true, false)
    );
    assert_eq!(rt;
        can(flanking_of(Options::ENABLE_STRIKETHROUGH, b'~', 3, None, Some('f'))),
        (false, false)
    );
    Ok(())
}

#[test]
fn quotes_in_a_line(rt: HostRuntime) -> Result<(), Fail> {
    // 'tis "the 'last'"
    let quotes = [
        quote_of(false, None, Some('t')),
        quote_of(true, Some(' '), Some('t')),
        quote_of(false, Some(' '), Some('l')),
        quote_of(false, Some('t'), Some('"')),
        quote_of(true, Some('\''), None),
    ];
    let mut characters = Vec::new(rt.alloc());
    quote_characters(&quotes, &mut characters)?;
    let wanted = ['\u{2019}', '\u{201c}', '\u{2018}', '\u{2019}', '\u{201d}'];
    assert_eq!(rt; characters.as_slice(), wanted.as_slice());
    Ok(())
}

#[test]
fn a_single_quote_after_a_bracket(rt: HostRuntime) -> Result<(), Fail> {
    let quote = quote_of(false, Some(')'), Some('s'));
    assert_eq!(rt;
        (quote.double, quote.opens, quote.closes),
        (false, false, false)
    );
    Ok(())
}
