//! Values.
use crate::error::BadValue;
use cupolanettle_sys as raw;
use std::borrow::Borrow;
use std::cmp::Ordering;
use std::fmt;
use std::hash::{Hash, Hasher};
use std::num::NonZeroU64;
use std::ops::Deref;

/// A value: one to eight words of 64 bits. It is a slice of them, and is compared, ordered and
/// hashed as that.
///
/// ```
/// use cupolanettle::Value;
///
/// let one = Value::from(7);
/// let two = Value::from([7, 8]);
/// assert_eq!(one[0], 7);
/// assert_eq!(two.len(), 2);
/// assert_eq!(two.iter().sum::<u64>(), 15);
/// assert!(one < two);
/// ```
///
/// An array of no word, or of more than eight, does not compile:
///
/// ```compile_fail
/// let nine = cupolanettle::Value::from([0; 9]);
/// ```
///
/// A slice is tried:
///
/// ```
/// use cupolanettle::{BadValue, Value};
///
/// let words = vec![1, 2, 3];
/// let value = Value::try_from(&words[..])?;
/// assert_eq!(value[..], words[..]);
/// assert!(Value::try_from(&words[..0]).is_err());
/// # Ok::<(), BadValue>(())
/// ```
#[derive(Clone, Copy)]
pub struct Value {
    /// One to eight.
    length: NonZeroU64,
    /// Those behind the length are 0.
    words: [u64; Value::MOST_WORDS],
}

impl Value {
    /// The most words of a value.
    pub const MOST_WORDS: usize = 8;

    /// The value of these words, if there are one to eight.
    #[inline]
    pub(crate) fn of(words: &[u64]) -> Option<Value> {
        let mut raw = raw::Value { length: words.len() as u64, words: [0; Value::MOST_WORDS] };
        raw.words.get_mut(..words.len())?.copy_from_slice(words);
        Value::from_raw(raw)
    }

    /// What the library answers, or `None` where that is no value.
    #[inline]
    pub(crate) fn from_raw(raw: raw::Value) -> Option<Value> {
        NonZeroU64::new(raw.length).map(|length| Value { length, words: raw.words })
    }

    /// The value for the library.
    #[inline]
    pub(crate) fn into_raw(self) -> raw::Value {
        raw::Value { length: self.length.get(), words: self.words }
    }

    /// The value for the library, or none.
    #[inline]
    pub(crate) fn raw_of(value: Option<Value>) -> raw::Value {
        value.map(Value::into_raw).unwrap_or_default()
    }
}

impl From<u64> for Value {
    #[inline]
    fn from(word: u64) -> Value {
        Value { length: NonZeroU64::MIN, words: [word, 0, 0, 0, 0, 0, 0, 0] }
    }
}

impl<const N: usize> From<[u64; N]> for Value {
    #[inline]
    fn from(words: [u64; N]) -> Value {
        const { assert!(N >= 1 && N <= Value::MOST_WORDS, "a value has one to eight words") };
        match Value::of(&words) {
            Some(value) => value,
            None => unreachable!(),
        }
    }
}

impl TryFrom<&[u64]> for Value {
    type Error = BadValue;

    fn try_from(words: &[u64]) -> Result<Value, BadValue> {
        Value::of(words).ok_or(BadValue)
    }
}

impl TryFrom<Vec<u64>> for Value {
    type Error = BadValue;

    fn try_from(words: Vec<u64>) -> Result<Value, BadValue> {
        Value::try_from(&words[..])
    }
}

impl From<Value> for Vec<u64> {
    fn from(value: Value) -> Vec<u64> {
        value.to_vec()
    }
}

impl<'a> IntoIterator for &'a Value {
    type Item = &'a u64;
    type IntoIter = std::slice::Iter<'a, u64>;

    fn into_iter(self) -> std::slice::Iter<'a, u64> {
        self.iter()
    }
}

impl Deref for Value {
    type Target = [u64];

    #[inline]
    #[allow(clippy::cast_possible_truncation)] // it is at most eight
    fn deref(&self) -> &[u64] {
        &self.words[..self.length.get() as usize]
    }
}

impl AsRef<[u64]> for Value {
    fn as_ref(&self) -> &[u64] {
        self
    }
}

impl Borrow<[u64]> for Value {
    fn borrow(&self) -> &[u64] {
        self
    }
}

impl PartialEq for Value {
    fn eq(&self, other: &Value) -> bool {
        self[..] == other[..]
    }
}

impl Eq for Value {}

impl PartialOrd for Value {
    fn partial_cmp(&self, other: &Value) -> Option<Ordering> {
        Some(self.cmp(other))
    }
}

impl Ord for Value {
    fn cmp(&self, other: &Value) -> Ordering {
        self[..].cmp(&other[..])
    }
}

impl Hash for Value {
    fn hash<H: Hasher>(&self, state: &mut H) {
        self[..].hash(state);
    }
}

impl fmt::Debug for Value {
    fn fmt(&self, f: &mut fmt::Formatter<'_>) -> fmt::Result {
        self[..].fmt(f)
    }
}
