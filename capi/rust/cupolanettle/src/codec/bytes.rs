//! Codecs of texts and bytes.
use super::{KeyCodec, ValueCodec};
use crate::error::BadBytes;
use crate::value::Value;
use std::fmt;
use std::ops::{Deref, RangeInclusive};
use std::str::{self, Utf8Error};

/// The bytes of a word, and so of a key.
const WORD: usize = 8;

/// A text of up to eight bytes, which has room in a key. Keys are in the order of the bytes, which
/// for texts is that of `str`.
///
/// It is a slice of its bytes. It does not end with a zero byte, as a key with fewer bytes does.
///
/// ```
/// use cupolanettle::codec::{KeyCodec, Text8};
/// use cupolanettle::{BadBytes, Error, Options};
///
/// let store = Options::new().keys(1_000).open()?;
/// let caller = store.caller()?;
/// for word in ["the", "lazy", "dog"] {
///     caller.add(Text8::try_from(word)?.to_key(), 1)?;
/// }
/// let (key, _) = caller.first_key_value()?.expect("three words");
/// assert_eq!(Text8::from_key(key).to_str(), Ok("dog"));
///
/// assert_eq!(Text8::try_from("nine bytes"), Err(BadBytes));
/// # Ok::<(), Error>(())
/// ```
#[derive(Clone, Copy, PartialEq, Eq, PartialOrd, Ord, Hash, Default)]
pub struct Text8 {
    /// Those behind the last byte of the text are 0.
    bytes: [u8; WORD],
}

impl Text8 {
    /// The most bytes of such a text.
    pub const MOST_BYTES: usize = WORD;

    /// The text, if it is one: a key that something else has made may not be UTF-8.
    ///
    /// # Errors
    ///
    /// As of [`str::from_utf8`].
    ///
    /// ```
    /// # use cupolanettle::codec::{KeyCodec, Text8};
    /// assert_eq!(Text8::from_key(0x6f6e_6500_0000_0000).to_str(), Ok("one"));
    /// assert!(Text8::from_key(u64::MAX).to_str().is_err());
    /// ```
    pub fn to_str(&self) -> Result<&str, Utf8Error> {
        str::from_utf8(self)
    }

    /// The keys of all texts that begin with this one.
    ///
    /// ```
    /// use cupolanettle::codec::{KeyCodec, Text8};
    /// use cupolanettle::{Error, Options};
    ///
    /// let store = Options::new().keys(1_000).open()?;
    /// let caller = store.caller()?;
    /// for word in ["do", "dog", "dogma", "dot"] {
    ///     caller.put(Text8::try_from(word)?.to_key(), 1)?;
    /// }
    /// assert_eq!(caller.count(Text8::try_from("dog")?.prefixed()), 2);
    /// # Ok::<(), Error>(())
    /// ```
    #[must_use]
    #[doc(alias("prefix", "starts_with"))]
    pub fn prefixed(&self) -> RangeInclusive<u64> {
        let mut last = [u8::MAX; WORD];
        last[..self.len()].copy_from_slice(self);
        self.to_key()..=u64::from_be_bytes(last)
    }
}

impl KeyCodec for Text8 {
    #[inline]
    fn to_key(self) -> u64 {
        u64::from_be_bytes(self.bytes)
    }

    #[inline]
    fn from_key(key: u64) -> Text8 {
        Text8 { bytes: key.to_be_bytes() }
    }
}

/// Refused if they are more than eight, or the last one is 0.
impl TryFrom<&[u8]> for Text8 {
    type Error = BadBytes;

    fn try_from(bytes: &[u8]) -> Result<Text8, BadBytes> {
        let mut text = Text8::default();
        text.bytes.get_mut(..bytes.len()).ok_or(BadBytes)?.copy_from_slice(bytes);
        if bytes.last() == Some(&0) {
            return Err(BadBytes);
        }
        Ok(text)
    }
}

impl Deref for Text8 {
    type Target = [u8];

    fn deref(&self) -> &[u8] {
        let last = self.bytes.iter().rposition(|byte| *byte != 0);
        &self.bytes[..last.map_or(0, |last| last + 1)]
    }
}

/// Up to 63 bytes, which have room in a value: a text, or a record of another format.
///
/// It is a slice of them. They take a word for each eight, with one byte more for their number.
///
/// ```
/// use cupolanettle::codec::{Bytes63, ValueCodec};
/// use cupolanettle::{BadBytes, Error, Options};
///
/// let store = Options::new().keys(1_000).open()?;
/// let caller = store.caller()?;
/// caller.put(7, Bytes63::try_from("seven")?.to_value())?;
/// caller.put(8, Bytes63::try_from(&[0, 1, 2][..])?.to_value())?;
///
/// let text = caller.get(7).as_ref().and_then(Bytes63::from_value).expect("it was put");
/// assert_eq!(text.to_str(), Ok("seven"));
/// let bytes = caller.get(8).as_ref().and_then(Bytes63::from_value).expect("it was put");
/// assert_eq!(bytes[..], [0, 1, 2]);
///
/// assert_eq!(Bytes63::try_from(&[0; 64][..]), Err(BadBytes));
/// # Ok::<(), Error>(())
/// ```
#[derive(Clone, Copy, PartialEq, Eq, PartialOrd, Ord, Hash)]
pub struct Bytes63 {
    /// Those behind the length are 0. So the order of slices is that of the bytes, and, where these
    /// are the same, of the lengths.
    bytes: [u8; Bytes63::MOST_BYTES],
    length: u8,
}

impl Bytes63 {
    /// The most bytes that a value has room for.
    pub const MOST_BYTES: usize = WORD * Value::MOST_WORDS - 1;

    /// The text, if the bytes are one.
    ///
    /// # Errors
    ///
    /// As of [`str::from_utf8`].
    ///
    /// ```
    /// # use cupolanettle::codec::Bytes63;
    /// # use cupolanettle::BadBytes;
    /// assert_eq!(Bytes63::try_from("seven")?.to_str(), Ok("seven"));
    /// assert!(Bytes63::try_from(&[0xff][..])?.to_str().is_err());
    /// # Ok::<(), BadBytes>(())
    /// ```
    pub fn to_str(&self) -> Result<&str, Utf8Error> {
        str::from_utf8(self)
    }

    /// So many words have room for these bytes and their number.
    fn words(&self) -> usize {
        (1 + self.len()).div_ceil(WORD)
    }
}

impl ValueCodec for Bytes63 {
    fn to_value(&self) -> Value {
        let mut image = [0; WORD * Value::MOST_WORDS];
        image[0] = self.length;
        image[1..].copy_from_slice(&self.bytes);
        let mut words = [0; Value::MOST_WORDS];
        for (word, bytes) in words.iter_mut().zip(image.chunks_exact(WORD)) {
            *word = bytes.iter().rev().fold(0, |word, byte| word << 8 | u64::from(*byte));
        }
        match Value::of(&words[..self.words()]) {
            Some(value) => value,
            None => unreachable!("there are one to eight words"),
        }
    }

    fn from_value(value: &Value) -> Option<Bytes63> {
        let mut image = [0; WORD * Value::MOST_WORDS];
        for (bytes, word) in image.chunks_exact_mut(WORD).zip(value.iter()) {
            bytes.copy_from_slice(&word.to_le_bytes());
        }
        let (&length, bytes) = image.split_first()?;
        let end = usize::from(length);
        let found = Bytes63::try_from(bytes.get(..end)?).ok()?;
        let is_whole = value.len() == found.words() && bytes[end..].iter().all(|byte| *byte == 0);
        is_whole.then_some(found)
    }
}

/// Refused if they are more than 63.
impl TryFrom<&[u8]> for Bytes63 {
    type Error = BadBytes;

    fn try_from(given: &[u8]) -> Result<Bytes63, BadBytes> {
        let mut bytes = [0; Bytes63::MOST_BYTES];
        bytes.get_mut(..given.len()).ok_or(BadBytes)?.copy_from_slice(given);
        let length = u8::try_from(given.len()).map_err(|_| BadBytes)?;
        Ok(Bytes63 { bytes, length })
    }
}

/// No bytes.
impl Default for Bytes63 {
    fn default() -> Bytes63 {
        Bytes63 { bytes: [0; Bytes63::MOST_BYTES], length: 0 }
    }
}

impl Deref for Bytes63 {
    type Target = [u8];

    fn deref(&self) -> &[u8] {
        &self.bytes[..usize::from(self.length)]
    }
}

/// What slices of bytes have in common.
macro_rules! slices {
    ($($bytes:ident,)*) => {$(
        /// Refused as the bytes of the text are.
        impl TryFrom<&str> for $bytes {
            type Error = BadBytes;

            fn try_from(text: &str) -> Result<$bytes, BadBytes> {
                $bytes::try_from(text.as_bytes())
            }
        }

        impl AsRef<[u8]> for $bytes {
            fn as_ref(&self) -> &[u8] {
                self
            }
        }

        /// As a text, with U+FFFD in place of what is no UTF-8.
        impl fmt::Display for $bytes {
            fn fmt(&self, f: &mut fmt::Formatter<'_>) -> fmt::Result {
                f.pad(&String::from_utf8_lossy(self))
            }
        }

        impl fmt::Debug for $bytes {
            fn fmt(&self, f: &mut fmt::Formatter<'_>) -> fmt::Result {
                write!(f, "b\"{}\"", self.escape_ascii())
            }
        }
    )*};
}

slices! {
    Text8,
    Bytes63,
}
