//! Codecs: keys and values of other types than `u64`.
//!
//! A [`KeyCodec`] makes a key of a number, a pair or a short text, so that keys are in the order of
//! these: [`i64`], `(u32, u32)`, [`f64`], [`Text8`], and [`Reverse`](std::cmp::Reverse) of any. A
//! [`ValueCodec`] makes a value of a number or of up to 63 bytes: [`i64`], [`f64`], [`Bytes63`].
//!
//! ```
//! use cupolanettle::codec::{self, Bytes63, KeyCodec, ValueCodec};
//! use cupolanettle::{Error, Options};
//!
//! let store = Options::new().keys(1_000).open()?;
//! let caller = store.caller()?;
//! for (degrees, name) in [(-12.5, "winter"), (21.0, "spring"), (33.5, "summer")] {
//!     caller.put(degrees.to_key(), Bytes63::try_from(name)?.to_value())?;
//! }
//!
//! let mut frosty = Vec::new();
//! for row in caller.range(codec::keys(..0.0))? {
//!     let (key, value) = row?;
//!     let name = Bytes63::from_value(&value).expect("all values are texts");
//!     frosty.push((f64::from_key(key), name.to_string()));
//! }
//! assert_eq!(frosty, [(-12.5, "winter".to_owned())]);
//! # Ok::<(), Error>(())
//! ```
//!
//! # Layouts
//!
//! Other languages encode alike; `capi/tests/codecs.txt` of the repository has cases for all.
//!
//! Key of | Is
//! --|--
//! `i64` | its two's complement, with the highest bit flipped
//! `(u32, u32)` | the first one in the upper half, the second one in the lower half
//! `f64` | its bits, all of them flipped if it is negative, and else the highest one
//! [`Text8`] | its bytes, the first one highest, and zeros behind them
//! `Reverse` | the key of what it holds, with all bits flipped
//!
//! Value of | Is
//! --|--
//! `i64` | one word: its two's complement
//! `f64` | one word: its bits
//! [`Bytes63`] | a byte that is their number, the bytes, and zeros up to the end of a word
//!
//! Words have the first of their bytes lowest, as memory of x86-64 has. The order of values is not
//! that of what they encode.
mod bytes;
mod numbers;

pub use bytes::{Bytes63, Text8};

use crate::value::Value;
use std::ops::{Bound, RangeBounds};

/// A type with a key for each of its values, and one of its values for each key. Keys are in the
/// order of the values.
///
/// ```
/// use cupolanettle::codec::KeyCodec;
///
/// assert!((-5_i64).to_key() < 3_i64.to_key());
/// assert!((1, 9).to_key() < (2, 0).to_key());
/// assert_eq!(i64::from_key((-5_i64).to_key()), -5);
/// ```
///
/// One of your own keeps to that order; a range of keys is a range of values then:
///
/// ```
/// use cupolanettle::codec::{self, KeyCodec};
/// use cupolanettle::{Error, Options};
///
/// /// A customer's orders lie side by side, the latest one first.
/// #[derive(Clone, Copy, PartialEq, Debug)]
/// struct Order {
///     customer: u32,
///     day: u32,
/// }
///
/// impl KeyCodec for Order {
///     fn to_key(self) -> u64 {
///         (self.customer, !self.day).to_key()
///     }
///
///     fn from_key(key: u64) -> Order {
///         let (customer, day) = <(u32, u32)>::from_key(key);
///         Order { customer, day: !day }
///     }
/// }
///
/// let store = Options::new().keys(1_000).open()?;
/// let caller = store.caller()?;
/// for (customer, day) in [(7, 100), (8, 200), (7, 300)] {
///     caller.put(Order { customer, day }.to_key(), 1)?;
/// }
/// let of_seven = Order { customer: 7, day: u32::MAX }..=Order { customer: 7, day: 0 };
/// let page = caller.page(codec::keys(of_seven), 1)?;
/// assert_eq!(Order::from_key(page.rows[0].0), Order { customer: 7, day: 300 });
/// # Ok::<(), Error>(())
/// ```
#[doc(alias("Encode", "Decode", "Serialize", "Deserialize", "memcomparable"))]
pub trait KeyCodec: Copy {
    /// Its key.
    ///
    /// ```
    /// # use cupolanettle::codec::KeyCodec;
    /// assert_eq!((1, 2).to_key(), 1 << 32 | 2);
    /// ```
    #[must_use]
    fn to_key(self) -> u64;

    /// What the key is of.
    ///
    /// ```
    /// # use cupolanettle::codec::KeyCodec;
    /// assert_eq!(<(u32, u32)>::from_key(1 << 32 | 2), (1, 2));
    /// ```
    #[must_use]
    fn from_key(key: u64) -> Self;
}

/// A type with a value of the map for each of its values.
///
/// ```
/// use cupolanettle::codec::ValueCodec;
/// use cupolanettle::{Error, Options};
///
/// let store = Options::new().keys(1_000).open()?;
/// let caller = store.caller()?;
/// caller.put(7, 2.5.to_value())?;
/// assert_eq!(caller.get(7).as_ref().and_then(f64::from_value), Some(2.5));
/// # Ok::<(), Error>(())
/// ```
#[doc(alias("Encode", "Decode", "Serialize", "Deserialize"))]
pub trait ValueCodec: Sized {
    /// Its value.
    ///
    /// ```
    /// # use cupolanettle::codec::ValueCodec;
    /// assert_eq!((-1_i64).to_value()[..], [u64::MAX]);
    /// ```
    #[must_use]
    fn to_value(&self) -> Value;

    /// What the value is of, if it is one that [`to_value`](ValueCodec::to_value) makes.
    ///
    /// ```
    /// # use cupolanettle::codec::{Bytes63, ValueCodec};
    /// assert_eq!(i64::from_value(&u64::MAX.into()), Some(-1));
    /// assert_eq!(i64::from_value(&[1, 2].into()), None);
    /// assert_eq!(Bytes63::from_value(&64.into()), None);
    /// ```
    #[must_use]
    fn from_value(value: &Value) -> Option<Self>;
}

/// The keys of a range of another type, for [`range`](crate::Caller::range) and all else that takes
/// a range of keys.
///
/// ```
/// use cupolanettle::codec::{self, KeyCodec};
/// use cupolanettle::{Error, Options};
///
/// let store = Options::new().keys(1_000).open()?;
/// let caller = store.caller()?;
/// for number in -5..5_i64 {
///     caller.put(number.to_key(), 1)?;
/// }
/// assert_eq!(caller.count(codec::keys(..0_i64)), 5);
/// assert_eq!(caller.count(codec::keys(-2..=2_i64)), 5);
/// # Ok::<(), Error>(())
/// ```
#[must_use]
pub fn keys<K: KeyCodec>(range: impl RangeBounds<K>) -> (Bound<u64>, Bound<u64>) {
    let of = |bound: Bound<&K>| bound.map(|end| end.to_key());
    (of(range.start_bound()), of(range.end_bound()))
}
