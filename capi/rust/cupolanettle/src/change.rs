//! What changes answer.
use crate::value::Value;
use crate::Time;

/// What a change of a key found, and what the key has after it.
///
/// ```
/// # use cupolanettle::{Error, Options};
/// # let store = Options::new().keys(1_000).open()?;
/// # let caller = store.caller()?;
/// let changed = caller.add(7, 5)?;
/// assert_eq!((changed.before, changed.after), (None, Some(5.into())));
/// # Ok::<(), Error>(())
/// ```
#[non_exhaustive]
#[derive(Clone, Copy, PartialEq, Eq, Hash, Debug)]
pub struct Changed {
    /// The time of the write.
    pub time: Time,
    /// The value that the key had, if it had one.
    pub before: Option<Value>,
    /// The value that the key has, unless it was removed.
    pub after: Option<Value>,
}

/// The key kept its value, which the change did not fit. Nothing was written.
///
/// ```
/// # use cupolanettle::{ChangeError, Error, Options};
/// # let store = Options::new().keys(1_000).open()?;
/// # let caller = store.caller()?;
/// caller.put(7, 70)?;
/// if let Err(ChangeError::Kept(kept)) = caller.put_if_absent(7, 71) {
///     assert_eq!(kept.value, Some(70.into()));
/// }
/// # Ok::<(), Error>(())
/// ```
#[non_exhaustive]
#[derive(Clone, Copy, PartialEq, Eq, Hash, Debug)]
pub struct Kept {
    /// The time at which the value was read.
    pub time: Time,
    /// The value that the key has, if it has one.
    pub value: Option<Value>,
}
