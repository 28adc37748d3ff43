//! Each allocation of a call refused in turn, those of the library and those of this crate.
//!
//! The functions below replace glibc's `malloc`, `calloc` and `realloc`, so these tests are for glibc.
#![cfg(all(target_os = "linux", target_env = "gnu"))]

use pulldown_cmark::{html, BrokenLink, Error, Event, Options, Parser, Stream};
use std::cell::Cell;
use std::ffi::c_void;
use std::ops::Range;
use std::thread::LocalKey;

/// The text has texts that are not borrowed, attributes, a table, a definition and links without one.
const TEXT: &str = "# a {#b .c d=e}\n\na text of many bytes with &amp; and \\* [f] [g][] [h](<a destination of more than 22 bytes> 'and a title &amp; more')\n\
    `a\ncode span of many bytes`\n\n|a|b|\n|-|-|\n|c|d|\n\n[h]: /i 'j'\n";

thread_local! {
    /// The number of allocations of this thread until one is refused.
    static LEFT: Cell<usize> = const { Cell::new(usize::MAX) };
    /// Whether all later ones are refused too.
    static ARE_ALL_REFUSED: Cell<bool> = const { Cell::new(false) };
    /// Whether one was refused.
    static WAS_REFUSED: Cell<bool> = const { Cell::new(false) };
}

/// Writes a value of this thread, and returns the one before.
fn set<T>(place: &'static LocalKey<Cell<T>>, value: T) -> T {
    place.with(|it| it.replace(value))
}

/// Counts an allocation, and returns whether it is refused.
fn is_refused() -> bool {
    match LEFT.with(Cell::get) {
        usize::MAX => false,
        0 => {
            set(&WAS_REFUSED, true);
            if !ARE_ALL_REFUSED.with(Cell::get) {
                set(&LEFT, usize::MAX);
            }
            true
        }
        left => {
            set(&LEFT, left - 1);
            false
        }
    }
}

extern "C" {
    fn __libc_malloc(size: usize) -> *mut c_void;
    fn __libc_calloc(count: usize, size: usize) -> *mut c_void;
    fn __libc_realloc(old: *mut c_void, size: usize) -> *mut c_void;
}

/// # Safety
/// As for C's `malloc`.
#[no_mangle]
pub unsafe extern "C" fn malloc(size: usize) -> *mut c_void {
    if is_refused() {
        return std::ptr::null_mut();
    }
    // SAFETY: the caller keeps to the rules of `malloc`.
    unsafe { __libc_malloc(size) }
}

/// # Safety
/// As for C's `calloc`.
#[no_mangle]
pub unsafe extern "C" fn calloc(count: usize, size: usize) -> *mut c_void {
    if is_refused() {
        return std::ptr::null_mut();
    }
    // SAFETY: the caller keeps to the rules of `calloc`.
    unsafe { __libc_calloc(count, size) }
}

/// # Safety
/// As for C's `realloc`.
#[no_mangle]
pub unsafe extern "C" fn realloc(old: *mut c_void, size: usize) -> *mut c_void {
    if is_refused() {
        return std::ptr::null_mut();
    }
    // SAFETY: the caller keeps to the rules of `realloc`.
    unsafe { __libc_realloc(old, size) }
}

/// The outcome of a call of which allocation number `place` is refused, and whether one was.
fn refused_at<T>(place: usize, are_all: bool, call: impl FnOnce() -> T) -> (T, bool) {
    set(&ARE_ALL_REFUSED, are_all);
    set(&WAS_REFUSED, false);
    set(&LEFT, place);
    let found = call();
    set(&LEFT, usize::MAX);
    (found, WAS_REFUSED.with(Cell::get))
}

/// Refuses each allocation of a call in turn, alone and with all later ones. The call has to return `OutOfMemory`, or the value if one
/// allocation alone is refused and the call needs less; and the value at last. Returns the number of errors.
fn refuse_in_turn<T: PartialEq + std::fmt::Debug>(call: impl Fn() -> Result<T, Error>) -> usize {
    let wanted = call().unwrap();
    let mut errors = 0;
    for are_all in [false, true] {
        for place in 0.. {
            let (found, was_refused) = refused_at(place, are_all, &call);
            match found {
                Err(error) => assert_eq!((error, was_refused), (Error::OutOfMemory, true)),
                Ok(ref found) => {
                    assert_eq!(*found, wanted);
                    assert!(!(was_refused && are_all), "{place}");
                }
            }
            if !was_refused {
                break;
            }
            errors += usize::from(found.is_err());
        }
    }
    errors
}

#[test]
fn html_calls_return_the_error() {
    let options = Options::all();
    assert!(refuse_in_turn(|| html::to_html(TEXT, options)) > 10);
    assert!(refuse_in_turn(|| html::to_html_within(TEXT, options, 9)) > 10);
    assert!(refuse_in_turn(|| html::to_safe_html(TEXT, options, &["tel", "sms"])) > 10);
    assert!(refuse_in_turn(|| pulldown_cmark::events_json(TEXT, options)) > 10);
}

#[test]
fn a_string_is_as_it_was_after_the_error() {
    let events: Vec<Event> = Parser::new_ext(TEXT, Options::all()).collect();
    let wanted = html::to_html(TEXT, Options::all()).unwrap();
    for place in 0.. {
        let (mut out, mut given) = (String::from("old "), events.clone().into_iter());
        let call = || html::try_push_html(&mut out, given.by_ref());
        let (found, was_refused) = refused_at(place, true, call);
        if !was_refused {
            assert_eq!((found, out), (Ok(()), format!("old {wanted}")));
            assert!(place > 5);
            break;
        }
        assert_eq!(
            (found, out),
            (Err(Error::OutOfMemory), String::from("old "))
        );
    }
}

#[test]
fn definitions_are_returned_after_the_error() {
    let destination = || {
        let parser = Parser::new(TEXT);
        let found = parser.try_reference_definitions()?;
        Ok(found.get("h").map(|it| it.dest.len()))
    };
    assert!(refuse_in_turn(destination) > 5);
}

/// What a parser returns of which allocation number `place` is refused: its events, and the number of errors. After an error the same parser
/// is asked again.
fn events_with_refusal(
    place: usize,
    has_callback: bool,
) -> (Vec<(Event<'static>, Range<usize>)>, usize) {
    let mut asked = Vec::new();
    let mut callback = |link: BrokenLink<'_>| {
        let left = set(&LEFT, usize::MAX);
        asked.push(link.span);
        set(&LEFT, left);
        Some(("/u".into(), "a title of more than 22 bytes".into()))
    };
    let given = has_callback.then_some(&mut callback);
    let mut parser =
        Parser::new_with_broken_link_callback(TEXT, Options::all(), given).into_offset_iter();
    let (mut events, mut errors, mut left) = (Vec::new(), 0, place);
    set(&ARE_ALL_REFUSED, false);
    set(&WAS_REFUSED, false);
    loop {
        set(&LEFT, left);
        let found = parser.try_next();
        left = set(&LEFT, usize::MAX);
        match found {
            Ok(Some((event, range))) => events.push((event.into_static(), range)),
            Ok(None) => return (events, errors),
            Err(error) => {
                assert_eq!(error, Error::OutOfMemory);
                errors += 1;
            }
        }
    }
}

#[test]
fn no_event_is_lost_after_the_error() {
    for has_callback in [false, true] {
        let (wanted, none) = events_with_refusal(usize::MAX, has_callback);
        assert_eq!(none, 0);
        let mut with_error = 0;
        for place in 0.. {
            let (events, errors) = events_with_refusal(place, has_callback);
            assert_eq!(events, wanted);
            assert!(errors <= 1);
            with_error += errors;
            if !WAS_REFUSED.with(Cell::get) {
                break;
            }
        }
        assert!(with_error > 20, "{with_error}");
    }
}

#[test]
fn an_iterator_panics_and_does_not_abort() {
    let found = std::panic::catch_unwind(|| refused_at(3, false, || Parser::new(TEXT).count()));
    let said = found.unwrap_err().downcast::<String>().unwrap();
    assert_eq!(*said, "pulldown_cmark: memory was refused");
}

/// The text and the HTML of a stream.
fn shown(stream: &Stream) -> [String; 4] {
    [
        stream.text(),
        stream.settled(),
        stream.added(),
        stream.tail(),
    ]
    .map(String::from)
}

/// Refuses each allocation of a call that changes a stream, in turn. After an error the stream has to be as before. Returns the number of
/// errors.
fn refuse_stream(stream: &Stream, call: impl Fn(&mut Stream) -> Result<(), Error>) -> usize {
    for place in 0.. {
        let mut changed = stream.clone();
        let (found, was_refused) = refused_at(place, true, || call(&mut changed));
        if !was_refused {
            assert_eq!(found, Ok(()));
            assert_ne!(shown(&changed), shown(stream));
            return place;
        }
        assert_eq!(found, Err(Error::OutOfMemory));
        assert_eq!(shown(&changed), shown(stream));
    }
    unreachable!()
}

#[test]
fn a_text_that_grows_is_as_before_after_the_error() {
    let streams = [
        Stream::new(Options::empty()),
        Stream::new_safe(Options::empty(), 9, &["tel"]).unwrap(),
    ];
    for mut stream in streams {
        stream.push("# a\n\nb\nc").unwrap();
        stream.refresh().unwrap();
        assert_ne!(stream.settled(), "");
        assert!(refuse_stream(&stream, |it| it.push(" *c*\n\nd\n\ne, f, g, h")) > 0);
        assert!(refuse_stream(&stream, |it| it.push_bytes(b" *c*\n\nd\xC3\xA9\n\ne")) > 1);
        for more in [" *c*\n\nd\n\ne", "[a]: /b\n"] {
            stream.push(more).unwrap();
            assert!(refuse_stream(&stream, |it| it.refresh().map(|_| ())) > 10);
        }
    }
    assert!(refuse_in_turn(|| Ok(shown(&Stream::new_safe(Options::empty(), 9, &["tel"])?))) > 0);
}
