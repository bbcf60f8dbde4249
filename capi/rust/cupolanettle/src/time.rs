//! Times.
use std::fmt;

/// A time: each write has one of its own, and a read sees the writes below its own. A new store is
/// at time 0, and times end at 2^62.
///
/// ```
/// use cupolanettle::{Error, Options, Time};
///
/// let store = Options::new().keys(1_000).open()?;
/// let caller = store.caller()?;
/// let times: [Time; 2] = [caller.put(7, 70)?, caller.put(7, 71)?];
/// assert!(Time::ZERO <= times[0] && times[0] < times[1]);
/// # Ok::<(), Error>(())
/// ```
///
/// A message to another process, or to a part of the program that knows no times, takes its number:
///
/// ```
/// # use cupolanettle::{Error, Options, Time};
/// # let store = Options::new().keys(1_000).open()?;
/// # let (caller, other) = (store.caller()?, store.caller()?);
/// caller.put(7, 70)?;
/// let message: [u8; 8] = u64::from(caller.seen()).to_le_bytes();
///
/// other.follow(Time::from(u64::from_le_bytes(message)))?;
/// assert_eq!(other.get(7), Some(70.into()));
/// # Ok::<(), Error>(())
/// ```
#[derive(Clone, Copy, PartialEq, Eq, PartialOrd, Ord, Hash, Default)]
#[doc(alias("timestamp", "sequence_number", "version", "SequenceNumber"))]
pub struct Time(u64);

impl Time {
    /// The time of a new store. No call was answered before it.
    ///
    /// ```
    /// # use cupolanettle::{Error, Options, Time};
    /// let store = Options::new().keys(1_000).open()?;
    /// assert_eq!(store.caller()?.time(), Time::ZERO);
    /// # Ok::<(), Error>(())
    /// ```
    pub const ZERO: Time = Time(0);
}

/// Any number is a time; who [follows](crate::Caller::follow) one that the store has not reached is
/// refused.
impl From<u64> for Time {
    #[inline]
    fn from(number: u64) -> Time {
        Time(number)
    }
}

impl From<Time> for u64 {
    #[inline]
    fn from(time: Time) -> u64 {
        time.0
    }
}

impl fmt::Display for Time {
    fn fmt(&self, f: &mut fmt::Formatter<'_>) -> fmt::Result {
        self.0.fmt(f)
    }
}

/// The number.
impl fmt::Debug for Time {
    fn fmt(&self, f: &mut fmt::Formatter<'_>) -> fmt::Result {
        fmt::Debug::fmt(&self.0, f)
    }
}
