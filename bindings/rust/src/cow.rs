//! The texts of events.

use crate::Error;
use std::borrow::{Borrow, Cow};
use std::fmt;
use std::hash::{Hash, Hasher};
use std::ops::Deref;

/// The most bytes of an [`InlineStr`]: three words, less two bytes for the length and the kind of a [`CowStr`].
const MAX_INLINE_STR_LEN: usize = 3 * std::mem::size_of::<isize>() - 2;

/// The error of a text that is too long for an [`InlineStr`].
#[derive(Debug)]
pub struct StringTooLongError;

impl fmt::Display for StringTooLongError {
    fn fmt(&self, f: &mut fmt::Formatter<'_>) -> fmt::Result {
        write!(f, "the text has more than {MAX_INLINE_STR_LEN} bytes")
    }
}

impl std::error::Error for StringTooLongError {}

/// A short text that takes no memory of its own: at most 22 bytes on 64-bit machines.
#[derive(Clone, Copy, Eq)]
pub struct InlineStr {
    /// The text, and bytes without a meaning after it.
    inner: [u8; MAX_INLINE_STR_LEN],
    /// The number of bytes of the text.
    len: u8,
}

impl Deref for InlineStr {
    type Target = str;

    fn deref(&self) -> &str {
        // The constructors below take the bytes from a `str` or a `char`, so the empty text never comes from bytes that are not UTF-8.
        std::str::from_utf8(&self.inner[..usize::from(self.len)]).unwrap_or_default()
    }
}

impl AsRef<str> for InlineStr {
    fn as_ref(&self) -> &str {
        self
    }
}

impl PartialEq<InlineStr> for InlineStr {
    fn eq(&self, other: &InlineStr) -> bool {
        **self == **other
    }
}

impl Hash for InlineStr {
    fn hash<H: Hasher>(&self, state: &mut H) {
        (**self).hash(state);
    }
}

impl fmt::Debug for InlineStr {
    fn fmt(&self, f: &mut fmt::Formatter<'_>) -> fmt::Result {
        fmt::Debug::fmt(&**self, f)
    }
}

impl fmt::Display for InlineStr {
    fn fmt(&self, f: &mut fmt::Formatter<'_>) -> fmt::Result {
        f.write_str(self)
    }
}

impl From<char> for InlineStr {
    fn from(c: char) -> InlineStr {
        let mut inner = [0; MAX_INLINE_STR_LEN];
        let len = c.encode_utf8(&mut inner).len() as u8;
        InlineStr { inner, len }
    }
}

impl TryFrom<&str> for InlineStr {
    type Error = StringTooLongError;

    fn try_from(text: &str) -> Result<InlineStr, StringTooLongError> {
        let mut inner = [0; MAX_INLINE_STR_LEN];
        inner
            .get_mut(..text.len())
            .ok_or(StringTooLongError)?
            .copy_from_slice(text.as_bytes());
        Ok(InlineStr {
            inner,
            len: text.len() as u8,
        })
    }
}

/// A text that is borrowed, short, or owned. It is three words long.
///
/// Equality and hashes depend on the text alone.
///
/// ```
/// use pulldown_cmark::{CowStr, InlineStr};
///
/// let short = CowStr::Inlined(InlineStr::try_from("text").unwrap());
/// assert_eq!(short, CowStr::Borrowed("text"));
/// assert_eq!(short, CowStr::from(String::from("text")));
/// assert_eq!(short.len(), 4);
/// ```
#[derive(Debug, Eq)]
pub enum CowStr<'a> {
    /// An owned text.
    Boxed(Box<str>),
    /// A borrowed text.
    Borrowed(&'a str),
    /// A short text.
    Inlined(InlineStr),
}

impl<'a> CowStr<'a> {
    /// Returns the text as a `String`.
    pub fn into_string(self) -> String {
        match self {
            CowStr::Boxed(text) => text.into(),
            CowStr::Borrowed(text) => text.to_owned(),
            CowStr::Inlined(text) => text.to_string(),
        }
    }

    /// Returns the same text, short or owned, which lives as long as needed.
    pub fn into_static(self) -> CowStr<'static> {
        match self {
            CowStr::Boxed(text) => CowStr::Boxed(text),
            CowStr::Borrowed(text) => match InlineStr::try_from(text) {
                Ok(short) => CowStr::Inlined(short),
                Err(StringTooLongError) => CowStr::Boxed(text.into()),
            },
            CowStr::Inlined(text) => CowStr::Inlined(text),
        }
    }

    /// Copies a text, or returns the error if memory is refused.
    pub(crate) fn copied(text: &str) -> Result<CowStr<'a>, Error> {
        if let Ok(short) = InlineStr::try_from(text) {
            return Ok(CowStr::Inlined(short));
        }
        let mut owned = String::new();
        owned.try_reserve_exact(text.len())?;
        owned.push_str(text);
        Ok(CowStr::Boxed(owned.into_boxed_str()))
    }
}

impl Deref for CowStr<'_> {
    type Target = str;

    fn deref(&self) -> &str {
        match self {
            CowStr::Boxed(text) => text,
            CowStr::Borrowed(text) => text,
            CowStr::Inlined(text) => text,
        }
    }
}

impl AsRef<str> for CowStr<'_> {
    fn as_ref(&self) -> &str {
        self
    }
}

impl Borrow<str> for CowStr<'_> {
    fn borrow(&self) -> &str {
        self
    }
}

impl Clone for CowStr<'_> {
    /// Copies the text. The copy of a short owned text takes no memory.
    fn clone(&self) -> Self {
        match self {
            CowStr::Boxed(text) => match InlineStr::try_from(&**text) {
                Ok(short) => CowStr::Inlined(short),
                Err(StringTooLongError) => CowStr::Boxed(text.clone()),
            },
            CowStr::Borrowed(text) => CowStr::Borrowed(text),
            CowStr::Inlined(text) => CowStr::Inlined(*text),
        }
    }
}

impl<'a> PartialEq<CowStr<'a>> for CowStr<'a> {
    fn eq(&self, other: &CowStr<'_>) -> bool {
        **self == **other
    }
}

impl Hash for CowStr<'_> {
    fn hash<H: Hasher>(&self, state: &mut H) {
        (**self).hash(state);
    }
}

impl fmt::Display for CowStr<'_> {
    fn fmt(&self, f: &mut fmt::Formatter<'_>) -> fmt::Result {
        f.write_str(self)
    }
}

impl<'a> From<&'a str> for CowStr<'a> {
    fn from(text: &'a str) -> Self {
        CowStr::Borrowed(text)
    }
}

impl From<String> for CowStr<'_> {
    fn from(text: String) -> Self {
        CowStr::Boxed(text.into_boxed_str())
    }
}

impl From<char> for CowStr<'_> {
    fn from(c: char) -> Self {
        CowStr::Inlined(c.into())
    }
}

impl<'a> From<Cow<'a, str>> for CowStr<'a> {
    fn from(text: Cow<'a, str>) -> Self {
        match text {
            Cow::Borrowed(text) => CowStr::Borrowed(text),
            Cow::Owned(text) => CowStr::Boxed(text.into_boxed_str()),
        }
    }
}

impl<'a> From<CowStr<'a>> for Cow<'a, str> {
    fn from(text: CowStr<'a>) -> Self {
        match text {
            CowStr::Borrowed(text) => Cow::Borrowed(text),
            other => Cow::Owned(other.into_string()),
        }
    }
}

impl<'a> From<Cow<'a, char>> for CowStr<'a> {
    fn from(c: Cow<'a, char>) -> Self {
        CowStr::Inlined(InlineStr::from(c.into_owned()))
    }
}

#[cfg(feature = "serde")]
mod serialized {
    use super::CowStr;
    use serde::{de, Deserialize, Deserializer, Serialize, Serializer};
    use std::fmt;

    impl Serialize for CowStr<'_> {
        fn serialize<S: Serializer>(&self, serializer: S) -> Result<S::Ok, S::Error> {
            serializer.serialize_str(self)
        }
    }

    struct Text;

    impl<'de> de::Visitor<'de> for Text {
        type Value = CowStr<'de>;

        fn expecting(&self, f: &mut fmt::Formatter<'_>) -> fmt::Result {
            f.write_str("a string")
        }

        fn visit_borrowed_str<E: de::Error>(self, text: &'de str) -> Result<CowStr<'de>, E> {
            Ok(CowStr::Borrowed(text))
        }

        fn visit_str<E: de::Error>(self, text: &str) -> Result<CowStr<'de>, E> {
            CowStr::copied(text).map_err(E::custom)
        }

        fn visit_string<E: de::Error>(self, text: String) -> Result<CowStr<'de>, E> {
            Ok(text.into())
        }
    }

    impl<'a, 'de: 'a> Deserialize<'de> for CowStr<'a> {
        fn deserialize<D: Deserializer<'de>>(deserializer: D) -> Result<Self, D::Error> {
            deserializer.deserialize_str(Text)
        }
    }
}
