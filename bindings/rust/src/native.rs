//! The calls of the library. All unsafe code of this crate is in this file.

use crate::Error;

// The statuses of a call, as pulldown_cmark.h defines them.
const DONE: u32 = 0;
const TOO_LONG: u32 = 1;
const MALFORMED: u32 = 4;

/// A call for a text with options: `text`, `text_len`, `options`, `room`, `room_len`, `size`.
type Reading = unsafe extern "C" fn(*const u8, usize, u32, *mut u8, usize, *mut usize) -> u32;

extern "C" {
    fn pcm_html(
        text: *const u8,
        text_len: usize,
        options: u32,
        room: *mut u8,
        room_len: usize,
        size: *mut usize,
    ) -> u32;
    fn pcm_html_within(
        text: *const u8,
        text_len: usize,
        options: u32,
        limit: usize,
        room: *mut u8,
        room_len: usize,
        size: *mut usize,
    ) -> u32;
    fn pcm_safe_html_with(
        text: *const u8,
        text_len: usize,
        options: u32,
        schemes: *const u8,
        schemes_len: usize,
        room: *mut u8,
        room_len: usize,
        size: *mut usize,
    ) -> u32;
    fn pcm_events_json(
        text: *const u8,
        text_len: usize,
        options: u32,
        room: *mut u8,
        room_len: usize,
        size: *mut usize,
    ) -> u32;
    fn pcm_events(
        text: *const u8,
        text_len: usize,
        options: u32,
        room: *mut u8,
        room_len: usize,
        size: *mut usize,
    ) -> u32;
    fn pcm_events_answered(
        text: *const u8,
        text_len: usize,
        options: u32,
        answers: *const u8,
        answers_len: usize,
        room: *mut u8,
        room_len: usize,
        size: *mut usize,
    ) -> u32;
    fn pcm_references(
        text: *const u8,
        text_len: usize,
        options: u32,
        room: *mut u8,
        room_len: usize,
        size: *mut usize,
    ) -> u32;
    fn pcm_render(
        records: *const u8,
        records_len: usize,
        room: *mut u8,
        room_len: usize,
        size: *mut usize,
    ) -> u32;
    fn pcm_safe_render(
        records: *const u8,
        records_len: usize,
        schemes: *const u8,
        schemes_len: usize,
        room: *mut u8,
        room_len: usize,
        size: *mut usize,
    ) -> u32;
    fn pcm_stream(
        text: *const u8,
        text_len: usize,
        options: u32,
        limit: usize,
        cut: *mut usize,
        settled: *mut usize,
        room: *mut u8,
        room_len: usize,
        size: *mut usize,
    ) -> u32;
    fn pcm_safe_stream(
        text: *const u8,
        text_len: usize,
        options: u32,
        schemes: *const u8,
        schemes_len: usize,
        limit: usize,
        cut: *mut usize,
        settled: *mut usize,
        room: *mut u8,
        room_len: usize,
        size: *mut usize,
    ) -> u32;
    fn pcm_version() -> u32;
}

/// Calls with a room of `first` bytes, and again with the size that the first call asks for. The first room is a guess and may be more than
/// there is; then the first call has no room.
///
/// `call` passes the room and its length to a call of the library, which writes the size, and returns the status. The room has no bytes
/// yet: the library reads none of them.
fn answer(
    first: usize,
    mut call: impl FnMut(*mut u8, usize, &mut usize) -> u32,
) -> Result<Vec<u8>, Error> {
    let (mut length, mut is_guess) = (first, true);
    loop {
        let mut room = Vec::new();
        match room.try_reserve_exact(length) {
            Err(_) if is_guess => length = 0,
            tried => tried?,
        }
        is_guess = false;
        let mut size = 0;
        match call(room.as_mut_ptr(), length, &mut size) {
            DONE if size <= length => {
                // SAFETY: `size` is at most the room's capacity. With the status PCM_DONE the library has written the first `size` bytes of
                // the room; that is a part of its contract.
                unsafe { room.set_len(size) };
                return Ok(room);
            }
            TOO_LONG if size > length => length = size,
            MALFORMED => return Err(Error::Malformed),
            // PCM_NOT_UTF8 cannot occur, since a `str` is UTF-8. PCM_UNKNOWN_OPTIONS cannot, since other bits are left out. PCM_BAD_CUT
            // cannot, since a cut is one that the library has left for a beginning of the text. So memory was refused.
            _ => return Err(Error::OutOfMemory),
        }
    }
}

/// The output of a call that takes a text and options.
fn read(call: Reading, text: &str, options: u32, first: usize) -> Result<Vec<u8>, Error> {
    answer(first, |room, room_len, size| {
        // SAFETY: the text is a `str`, the room is a vector's memory, and the size is a variable, with the lengths that they have. They do
        // not overlap, none of the pointers is NULL, also where a length is 0, and nobody else writes there while the call runs.
        unsafe { call(text.as_ptr(), text.len(), options, room, room_len, size) }
    })
}

/// The bytes as a text. It is proved that the library writes UTF-8; the check is made all the same, since the linker is not proved.
fn string(bytes: Result<Vec<u8>, Error>) -> Result<String, Error> {
    String::from_utf8(bytes?).map_err(|_| Error::Malformed)
}

/// The first room for HTML: texts of real files need no second call.
fn room_for_html(text_len: usize) -> usize {
    text_len.saturating_mul(2).saturating_add(256)
}

/// The first room for records: texts of real files need no second call. Pages of it that are not written take no memory.
fn room_for_records(text: &str) -> usize {
    text.len().saturating_mul(12).saturating_add(1024)
}

pub(crate) fn html(text: &str, options: u32) -> Result<String, Error> {
    string(read(pcm_html, text, options, room_for_html(text.len())))
}

pub(crate) fn html_within(text: &str, options: u32, limit: usize) -> Result<String, Error> {
    let first = room_for_html(text.len());
    string(answer(first, |room, room_len, size| {
        // SAFETY: as for `read`.
        unsafe {
            pcm_html_within(
                text.as_ptr(),
                text.len(),
                options,
                limit,
                room,
                room_len,
                size,
            )
        }
    }))
}

pub(crate) fn safe_html(text: &str, options: u32, schemes: &str) -> Result<String, Error> {
    let first = room_for_html(text.len());
    string(answer(first, |room, room_len, size| {
        // SAFETY: as for `read`; the schemes are a `str` too, of which the library reads as many bytes as it has.
        unsafe {
            pcm_safe_html_with(
                text.as_ptr(),
                text.len(),
                options,
                schemes.as_ptr(),
                schemes.len(),
                room,
                room_len,
                size,
            )
        }
    }))
}

pub(crate) fn events_json(text: &str, options: u32) -> Result<String, Error> {
    let first = text.len().saturating_mul(16).saturating_add(4096);
    string(read(pcm_events_json, text, options, first))
}

/// The records of a text's events.
pub(crate) fn events(text: &str, options: u32) -> Result<Vec<u8>, Error> {
    read(pcm_events, text, options, room_for_records(text))
}

/// The records of a text's events, and of the questions about links without a definition. `answers` has the answers that are known.
pub(crate) fn events_answered(text: &str, options: u32, answers: &[u8]) -> Result<Vec<u8>, Error> {
    answer(room_for_records(text), |room, room_len, size| {
        // SAFETY: as for `read`; the answers are a slice, of which the library reads as many bytes as it has.
        unsafe {
            pcm_events_answered(
                text.as_ptr(),
                text.len(),
                options,
                answers.as_ptr(),
                answers.len(),
                room,
                room_len,
                size,
            )
        }
    })
}

/// The records of a text's link reference definitions.
pub(crate) fn references(text: &str, options: u32) -> Result<Vec<u8>, Error> {
    read(
        pcm_references,
        text,
        options,
        text.len().saturating_add(256),
    )
}

/// The HTML of the events of records.
pub(crate) fn render(records: &[u8]) -> Result<String, Error> {
    string(answer(
        records.len().saturating_add(256),
        |room, room_len, size| {
            // SAFETY: as for `read`, with a slice in the place of the text.
            unsafe { pcm_render(records.as_ptr(), records.len(), room, room_len, size) }
        },
    ))
}

/// The safe HTML of the events of records.
pub(crate) fn safe_render(records: &[u8], schemes: &str) -> Result<String, Error> {
    string(answer(
        records.len().saturating_add(256),
        |room, room_len, size| {
            // SAFETY: as for `render`; the schemes are a `str`, of which the library reads as many bytes as it has.
            unsafe {
                pcm_safe_render(
                    records.as_ptr(),
                    records.len(),
                    schemes.as_ptr(),
                    schemes.len(),
                    room,
                    room_len,
                    size,
                )
            }
        },
    ))
}

/// The HTML of the lines of a text from a cut on.
pub(crate) struct Part {
    pub html: String,
    /// The number of the first bytes of `html` that are the HTML of the blocks before `cut`.
    pub settled: usize,
    /// The next cut: a byte offset in the text.
    pub cut: usize,
}

/// The parts of HTML that the library has written for a text that grows. The library is proved to keep to these bounds; they are checked all
/// the same, since the linker is not proved.
fn part(html: Result<Vec<u8>, Error>, settled: usize, cut: usize) -> Result<Part, Error> {
    let html = string(html)?;
    if !html.is_char_boundary(settled) {
        return Err(Error::Malformed);
    }
    Ok(Part { html, settled, cut })
}

/// The HTML of the lines of a text from a cut on, which an earlier call has left for a beginning of the text.
pub(crate) fn stream(text: &str, options: u32, limit: usize, cut: usize) -> Result<Part, Error> {
    let first = room_for_html(text.len().saturating_sub(cut));
    let (mut next, mut settled) = (cut, 0);
    let html = answer(first, |room, room_len, size| {
        // SAFETY: as for `read`; the cut and the settled size are variables too.
        unsafe {
            pcm_stream(
                text.as_ptr(),
                text.len(),
                options,
                limit,
                &mut next,
                &mut settled,
                room,
                room_len,
                size,
            )
        }
    });
    part(html, settled, next)
}

/// The safe HTML of the lines of a text from a cut on, which an earlier call has left for a beginning of the text.
pub(crate) fn safe_stream(
    text: &str,
    options: u32,
    schemes: &str,
    limit: usize,
    cut: usize,
) -> Result<Part, Error> {
    let first = room_for_html(text.len().saturating_sub(cut));
    let (mut next, mut settled) = (cut, 0);
    let html = answer(first, |room, room_len, size| {
        // SAFETY: as for `stream`; the schemes are a `str`, of which the library reads as many bytes as it has.
        unsafe {
            pcm_safe_stream(
                text.as_ptr(),
                text.len(),
                options,
                schemes.as_ptr(),
                schemes.len(),
                limit,
                &mut next,
                &mut settled,
                room,
                room_len,
                size,
            )
        }
    });
    part(html, settled, next)
}

pub(crate) fn version() -> u32 {
    // SAFETY: the call takes nothing, and reads no memory.
    unsafe { pcm_version() }
}
