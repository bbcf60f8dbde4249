//! What batches expect to find.
use crate::range::Keys;
use crate::value::Value;
use crate::Time;
use cupolanettle_sys as raw;
use std::fmt;
use std::ops::RangeBounds;

/// What [`Caller::batch_if`](crate::Caller::batch_if) expects to find. Values are compared, not
/// when they were written. Of several conditions of one key each counts.
///
/// They are numbered: those of keys in their order, and behind them those of ranges in theirs. A
/// range is the same if each of its rows is, and how many they are.
///
/// ```
/// use cupolanettle::{Batch, BatchIfError, Conditions, Error, Options};
///
/// let store = Options::new().keys(1_000).open()?;
/// let caller = store.caller()?;
/// caller.put(1, 10)?;
///
/// let mut conditions = Conditions::new();
/// conditions.has(1, 10).has_none(2).count(..100, 1);
/// caller.batch_if(&conditions, Batch::new().set(2, 20))?;
/// match caller.batch_if(&conditions, Batch::new().set(3, 30)) {
///     Err(BatchIfError::Unmet(unmet)) => assert_eq!(unmet.index, 1),
///     other => panic!("{other:?}"),
/// }
/// assert_eq!(caller.count(..), 2);
/// # Ok::<(), Error>(())
/// ```
#[derive(Clone, Default)]
#[doc(alias("Compare", "compare", "Precondition"))]
pub struct Conditions {
    rows: Vec<raw::Row>,
    counts: Vec<raw::RangeCount>,
}

impl Conditions {
    /// No condition.
    ///
    /// ```
    /// assert!(cupolanettle::Conditions::new().is_empty());
    /// ```
    #[must_use]
    pub const fn new() -> Conditions {
        Conditions { rows: Vec::new(), counts: Vec::new() }
    }

    /// Adds that the key has this value.
    ///
    /// ```
    /// let mut conditions = cupolanettle::Conditions::new();
    /// assert_eq!(conditions.has(7, 70).has(8, [80, 81]).len(), 2);
    /// ```
    pub fn has(&mut self, key: u64, value: impl Into<Value>) -> &mut Conditions {
        self.still(key, Some(value.into()))
    }

    /// Adds that the key has no value.
    ///
    /// ```
    /// let mut conditions = cupolanettle::Conditions::new();
    /// assert_eq!(conditions.has_none(7).len(), 1);
    /// ```
    pub fn has_none(&mut self, key: u64) -> &mut Conditions {
        self.still(key, None)
    }

    /// Adds that the key still has what a read answered.
    ///
    /// ```
    /// # use cupolanettle::{Batch, Conditions, Error, Options};
    /// # let store = Options::new().keys(1_000).open()?;
    /// # let caller = store.caller()?;
    /// let found = caller.get(7);
    /// caller.batch_if(Conditions::new().still(7, found), Batch::new().set(8, 80))?;
    /// # Ok::<(), Error>(())
    /// ```
    pub fn still(&mut self, key: u64, found: Option<Value>) -> &mut Conditions {
        self.rows.push(raw::Row { key, value: Value::raw_of(found) });
        self
    }

    /// Adds that so many keys of the range have a value.
    ///
    /// ```
    /// let mut conditions = cupolanettle::Conditions::new();
    /// assert_eq!(conditions.count(10..20, 0).count(.., 5).len(), 2);
    /// ```
    pub fn count(&mut self, range: impl RangeBounds<u64>, keys: u64) -> &mut Conditions {
        let Keys { first, last } = Keys::of(&range);
        self.counts.push(raw::RangeCount { first, last, keys });
        self
    }

    /// How many conditions there are.
    ///
    /// ```
    /// assert_eq!(cupolanettle::Conditions::new().has(7, 70).count(.., 1).len(), 2);
    /// ```
    #[must_use]
    pub fn len(&self) -> usize {
        self.rows.len() + self.counts.len()
    }

    /// Whether there is none.
    ///
    /// ```
    /// assert!(!cupolanettle::Conditions::new().has_none(7).is_empty());
    /// ```
    #[must_use]
    pub fn is_empty(&self) -> bool {
        self.len() == 0
    }

    /// Takes all out, and keeps their memory for others.
    ///
    /// ```
    /// let mut conditions = cupolanettle::Conditions::new();
    /// conditions.has(7, 70).count(.., 1).clear();
    /// assert!(conditions.is_empty());
    /// ```
    pub fn clear(&mut self) {
        self.rows.clear();
        self.counts.clear();
    }

    pub(crate) fn rows(&self) -> &[raw::Row] {
        &self.rows
    }

    pub(crate) fn counts(&self) -> &[raw::RangeCount] {
        &self.counts
    }
}

impl fmt::Debug for Conditions {
    fn fmt(&self, f: &mut fmt::Formatter<'_>) -> fmt::Result {
        let keys = self.rows.iter().map(|row| (row.key, Value::from_raw(row.value)));
        let counts = self.counts.iter().map(|of| (of.first..=of.last, of.keys));
        f.debug_list().entries(keys).entries(counts).finish()
    }
}

/// A condition of a batch does not hold. Nothing was written.
///
/// ```
/// use cupolanettle::{Batch, Conditions, Error, Options};
///
/// let store = Options::new().keys(1_000).open()?;
/// let caller = store.caller()?;
/// let tested = caller.batch_if(Conditions::new().has_none(1).has(2, 20), &Batch::new());
/// match tested.map_err(Error::from) {
///     Err(Error::Unmet(unmet)) => assert_eq!(unmet.index, 1),
///     other => panic!("{other:?}"),
/// }
/// # Ok::<(), Error>(())
/// ```
#[non_exhaustive]
#[derive(Clone, Copy, PartialEq, Eq, Hash, Debug)]
pub struct Unmet {
    /// The time at which it does not hold.
    pub time: Time,
    /// The number of the first condition that does not.
    pub index: usize,
}
