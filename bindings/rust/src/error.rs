//! The error of the calls that return a `Result`.

use std::collections::TryReserveError;
use std::fmt;

/// The reason why a call returned nothing.
#[derive(Clone, Copy, Debug, PartialEq, Eq, Hash)]
#[non_exhaustive]
pub enum Error {
    /// Memory was refused, to the library or to this crate.
    OutOfMemory,
    /// The library returned records that are not those of events. A proved library never does. This crate checks the records all the
    /// same, since the linker is not proved.
    Malformed,
    /// Bytes that were pushed to a [`Stream`](crate::Stream) are not UTF-8 after the bytes before them.
    NotUtf8,
}

impl fmt::Display for Error {
    fn fmt(&self, f: &mut fmt::Formatter<'_>) -> fmt::Result {
        f.write_str(match self {
            Error::OutOfMemory => "memory was refused",
            Error::Malformed => "the library returned malformed records",
            Error::NotUtf8 => "the text is not UTF-8",
        })
    }
}

impl std::error::Error for Error {}

impl From<TryReserveError> for Error {
    fn from(_: TryReserveError) -> Error {
        Error::OutOfMemory
    }
}

/// Returns the value, or panics where the API of pulldown-cmark leaves no error to return.
#[track_caller]
pub(crate) fn expect<T>(found: Result<T, Error>) -> T {
    match found {
        Ok(value) => value,
        Err(error) => panic!("pulldown_cmark: {error}"),
    }
}
