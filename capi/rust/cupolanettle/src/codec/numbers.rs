//! Codecs of numbers.
use super::{KeyCodec, ValueCodec};
use crate::value::Value;
use std::cmp::Reverse;

/// The highest bit: the sign of a number.
const SIGN: u64 = 1 << 63;

/// The bits of half a key.
const HALF: u32 = 32;

/// The number itself.
impl KeyCodec for u64 {
    #[inline]
    fn to_key(self) -> u64 {
        self
    }

    #[inline]
    fn from_key(key: u64) -> u64 {
        key
    }
}

impl KeyCodec for i64 {
    #[inline]
    fn to_key(self) -> u64 {
        u64::from_ne_bytes(self.to_ne_bytes()) ^ SIGN
    }

    #[inline]
    fn from_key(key: u64) -> i64 {
        i64::from_ne_bytes((key ^ SIGN).to_ne_bytes())
    }
}

impl KeyCodec for (u32, u32) {
    #[inline]
    fn to_key(self) -> u64 {
        u64::from(self.0) << HALF | u64::from(self.1)
    }

    #[inline]
    #[allow(clippy::cast_possible_truncation)] // to the lower half
    fn from_key(key: u64) -> (u32, u32) {
        ((key >> HALF) as u32, key as u32)
    }
}

/// The order is that of [`f64::total_cmp`]: -0.0 is below 0.0, and each has a key of its own. A NaN
/// is above all numbers, or, with its sign set, below them.
impl KeyCodec for f64 {
    #[inline]
    fn to_key(self) -> u64 {
        let bits = self.to_bits();
        if bits & SIGN == 0 {
            bits | SIGN
        } else {
            !bits
        }
    }

    #[inline]
    fn from_key(key: u64) -> f64 {
        f64::from_bits(if key & SIGN == 0 { !key } else { key & !SIGN })
    }
}

/// The greatest first: keys are in the reverse order.
impl<K: KeyCodec> KeyCodec for Reverse<K> {
    #[inline]
    fn to_key(self) -> u64 {
        !self.0.to_key()
    }

    #[inline]
    fn from_key(key: u64) -> Reverse<K> {
        Reverse(K::from_key(!key))
    }
}

/// The word of a value that has one.
#[inline]
fn one_word(value: &Value) -> Option<u64> {
    match value[..] {
        [word] => Some(word),
        _ => None,
    }
}

/// One word: the number itself.
impl ValueCodec for u64 {
    #[inline]
    fn to_value(&self) -> Value {
        Value::from(*self)
    }

    #[inline]
    fn from_value(value: &Value) -> Option<u64> {
        one_word(value)
    }
}

impl ValueCodec for i64 {
    #[inline]
    fn to_value(&self) -> Value {
        Value::from(u64::from_ne_bytes(self.to_ne_bytes()))
    }

    #[inline]
    fn from_value(value: &Value) -> Option<i64> {
        one_word(value).map(|word| i64::from_ne_bytes(word.to_ne_bytes()))
    }
}

impl ValueCodec for f64 {
    #[inline]
    fn to_value(&self) -> Value {
        Value::from(self.to_bits())
    }

    #[inline]
    fn from_value(value: &Value) -> Option<f64> {
        one_word(value).map(f64::from_bits)
    }
}
