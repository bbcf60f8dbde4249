//! Batches.
use crate::value::Value;
use cupolanettle_sys as raw;
use std::fmt;

/// Writes that [`Caller::batch`](crate::Caller::batch) makes at one moment, in their order. Of
/// several writes of one key the last one wins.
///
/// ```
/// use cupolanettle::{Batch, Error, Options};
///
/// let store = Options::new().keys(1_000).open()?;
/// let caller = store.caller()?;
/// caller.put(1, 100)?;
///
/// let mut batch = Batch::new();
/// batch.remove(1).set(2, 60).set(3, [40, 7]);
/// caller.batch(&batch)?;
/// assert_eq!((caller.get(1), caller.get(2)), (None, Some(60.into())));
/// # Ok::<(), Error>(())
/// ```
#[derive(Clone, Default)]
#[doc(alias("WriteBatch", "write_batch"))]
pub struct Batch {
    rows: Vec<raw::Row>,
}

impl Batch {
    /// A batch of no writes.
    ///
    /// ```
    /// assert!(cupolanettle::Batch::new().is_empty());
    /// ```
    #[must_use]
    pub const fn new() -> Batch {
        Batch { rows: Vec::new() }
    }

    /// Adds a write of the value at the key.
    ///
    /// ```
    /// let mut batch = cupolanettle::Batch::new();
    /// for key in 0..10 {
    ///     batch.set(key, [key, 7]);
    /// }
    /// assert_eq!(batch.len(), 10);
    /// ```
    #[doc(alias("put", "insert"))]
    pub fn set(&mut self, key: u64, value: impl Into<Value>) -> &mut Batch {
        self.rows.push(raw::Row { key, value: value.into().into_raw() });
        self
    }

    /// Adds a removal of the key, whether or not that has a value.
    ///
    /// ```
    /// let mut batch = cupolanettle::Batch::new();
    /// batch.remove(7).remove(8);
    /// assert_eq!(batch.len(), 2);
    /// ```
    #[doc(alias = "delete")]
    pub fn remove(&mut self, key: u64) -> &mut Batch {
        self.rows.push(raw::Row { key, value: raw::Value::default() });
        self
    }

    /// How many writes it has.
    ///
    /// ```
    /// let mut batch = cupolanettle::Batch::new();
    /// assert_eq!(batch.set(7, 70).set(7, 71).len(), 2);
    /// ```
    #[must_use]
    pub fn len(&self) -> usize {
        self.rows.len()
    }

    /// Whether it has no write.
    ///
    /// ```
    /// let mut batch = cupolanettle::Batch::new();
    /// assert!(batch.is_empty() && !batch.remove(7).is_empty());
    /// ```
    #[must_use]
    pub fn is_empty(&self) -> bool {
        self.rows.is_empty()
    }

    /// Takes all writes out, and keeps their memory for others.
    ///
    /// ```
    /// let mut batch = cupolanettle::Batch::new();
    /// batch.set(7, 70).clear();
    /// assert!(batch.is_empty());
    /// ```
    pub fn clear(&mut self) {
        self.rows.clear();
    }

    pub(crate) fn rows(&self) -> &[raw::Row] {
        &self.rows
    }
}

/// Adds a write of each value at its key.
///
/// ```
/// use cupolanettle::{Batch, Error, Options};
///
/// let store = Options::new().keys(1_000).open()?;
/// let caller = store.caller()?;
/// let mut batch = Batch::new();
/// batch.remove(9);
/// batch.extend((0..5).map(|key| (key, 10 * key)));
/// batch.extend([(7, [70, 71])]);
/// batch.extend(caller.page(.., 100)?.rows);
/// assert_eq!(batch.len(), 7);
/// # Ok::<(), Error>(())
/// ```
impl<V: Into<Value>> Extend<(u64, V)> for Batch {
    fn extend<I: IntoIterator<Item = (u64, V)>>(&mut self, rows: I) {
        let raw_of = |(key, value): (u64, V)| raw::Row { key, value: value.into().into_raw() };
        self.rows.extend(rows.into_iter().map(raw_of));
    }
}

/// Adds a write of each value at its key, and a removal of each key without a value.
///
/// ```
/// use cupolanettle::{Batch, Value};
///
/// let mut batch = Batch::new();
/// batch.extend([(1, Some(Value::from(10))), (2, None)]);
/// assert_eq!(format!("{batch:?}"), "[(1, Some([10])), (2, None)]");
/// ```
impl Extend<(u64, Option<Value>)> for Batch {
    fn extend<I: IntoIterator<Item = (u64, Option<Value>)>>(&mut self, rows: I) {
        let raw_of = |(key, value)| raw::Row { key, value: Value::raw_of(value) };
        self.rows.extend(rows.into_iter().map(raw_of));
    }
}

/// A batch of writes and removals, as they [extend](Batch#impl-Extend<(u64,+V)>-for-Batch) one.
///
/// ```
/// use cupolanettle::{Batch, Error, Options, Value};
///
/// let store = Options::new().keys(1_000).open()?;
/// let caller = store.caller()?;
/// let squares: Batch = (0..10).map(|key| (key, key * key)).collect();
/// caller.batch(&squares)?;
/// assert_eq!(caller.get(9), Some(81.into()));
///
/// let none = None::<Value>;
/// caller.batch(&Batch::from_iter([(8, none), (9, none)]))?;
/// assert_eq!(caller.count(..), 8);
/// # Ok::<(), Error>(())
/// ```
impl<V> FromIterator<(u64, V)> for Batch
where
    Batch: Extend<(u64, V)>,
{
    fn from_iter<I: IntoIterator<Item = (u64, V)>>(rows: I) -> Batch {
        let mut batch = Batch::new();
        batch.extend(rows);
        batch
    }
}

impl fmt::Debug for Batch {
    fn fmt(&self, f: &mut fmt::Formatter<'_>) -> fmt::Result {
        let writes = self.rows.iter().map(|row| (row.key, Value::from_raw(row.value)));
        f.debug_list().entries(writes).finish()
    }
}
