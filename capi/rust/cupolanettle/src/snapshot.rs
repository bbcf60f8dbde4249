//! Snapshots.
use crate::error::{CopyError, Memory};
use crate::library::Handle;
use crate::range::{
    first_row, is_empty, last_row, read_many, read_page, Keys, Page, Range, ROWS_AT_A_TIME,
};
use crate::store::Store;
use crate::value::Value;
use crate::Time;
use cupolanettle_sys as raw;
use std::fmt;
use std::ops::RangeBounds;

/// Reads the map as it was when the snapshot was opened.
///
/// It is a handle of its own, with a seat of its own: callers go on beside it. It may be moved to
/// another thread, but not shared. Threads that read the map of one moment take it in turn, in a
/// [`Mutex`](std::sync::Mutex).
///
/// ```compile_fail,E0277
/// fn share<T: Sync>() {}
/// share::<cupolanettle::Snapshot>();
/// ```
///
/// While it is open, merges keep all versions that it may read, for which the store has
/// [room](crate::Options::versions). If it stays open while more is written than that, writes
/// [wait](crate::Options::wait) for it to be dropped, or are
/// [refused](crate::Refused::VersionsFull).
///
/// ```
/// use cupolanettle::{Error, Options};
///
/// let store = Options::new().keys(1_000).open()?;
/// let caller = store.caller()?;
/// caller.put(1, 10)?;
/// let snapshot = caller.snapshot()?;
/// caller.put(1, 11)?;
/// caller.put(2, 20)?;
/// assert_eq!(snapshot.get(1), Some(10.into()));
/// assert_eq!(snapshot.count(..), 1);
/// # Ok::<(), Error>(())
/// ```
#[doc(alias("ReadTransaction", "RoTxn", "View"))]
pub struct Snapshot {
    pub(crate) handle: Handle<raw::Snapshot>,
}

impl Snapshot {
    pub(crate) fn of(handle: Handle<raw::Snapshot>) -> Snapshot {
        Snapshot { handle }
    }

    /// The number of its seat, from 0 to 63, which no other caller or snapshot has that is open.
    ///
    /// ```
    /// # use cupolanettle::{Error, Options};
    /// # let store = Options::new().keys(1_000).open()?;
    /// # let caller = store.caller()?;
    /// assert_ne!(caller.snapshot()?.number(), caller.number());
    /// # Ok::<(), Error>(())
    /// ```
    #[must_use]
    pub fn number(&self) -> usize {
        self.handle.number()
    }

    /// The time at which it reads: it sees the writes below that, and no other. Who
    /// [follows](crate::Caller::follow) it sees all that the snapshot does.
    ///
    /// ```
    /// # use cupolanettle::{Error, Options};
    /// # let store = Options::new().keys(1_000).open()?;
    /// # let caller = store.caller()?;
    /// let written = caller.put(7, 70)?;
    /// assert!(caller.snapshot()?.time() > written);
    /// # Ok::<(), Error>(())
    /// ```
    #[must_use]
    pub fn time(&self) -> Time {
        self.handle.time()
    }

    /// The value that the key had, if it had one.
    ///
    /// ```
    /// # use cupolanettle::{Error, Options};
    /// # let store = Options::new().keys(1_000).open()?;
    /// # let caller = store.caller()?;
    /// caller.put(7, 70)?;
    /// let snapshot = caller.snapshot()?;
    /// caller.remove(7)?;
    /// assert_eq!(snapshot.get(7), Some(70.into()));
    /// # Ok::<(), Error>(())
    /// ```
    #[must_use]
    #[inline]
    pub fn get(&self, key: u64) -> Option<Value> {
        self.handle.get(key)
    }

    /// The values that the keys had, each at the place of its key. It takes memory for them.
    ///
    /// # Errors
    ///
    /// [`Memory`].
    ///
    /// ```
    /// # use cupolanettle::{Error, Options};
    /// # let store = Options::new().keys(1_000).open()?;
    /// # let caller = store.caller()?;
    /// caller.put(7, 70)?;
    /// let snapshot = caller.snapshot()?;
    /// caller.remove(7)?;
    /// assert_eq!(snapshot.get_many(&[8, 7])?, [None, Some(70.into())]);
    /// # Ok::<(), Error>(())
    /// ```
    #[doc(alias("multi_get", "get_all"))]
    pub fn get_many(&self, keys: &[u64]) -> Result<Vec<Option<Value>>, Memory> {
        read_many(&self.handle, keys)
    }

    /// As [`get_many`](Snapshot::get_many), of an array, without memory.
    ///
    /// ```
    /// # use cupolanettle::{Error, Options};
    /// # let store = Options::new().keys(1_000).open()?;
    /// # let caller = store.caller()?;
    /// caller.put(7, 70)?;
    /// let snapshot = caller.snapshot()?;
    /// let [one, other] = snapshot.get_array([8, 7]);
    /// assert_eq!((one, other), (None, Some(70.into())));
    /// # Ok::<(), Error>(())
    /// ```
    #[must_use]
    pub fn get_array<const N: usize>(&self, keys: [u64; N]) -> [Option<Value>; N] {
        self.handle.get_array(keys)
    }

    /// Whether the key had a value. It costs a [`get`](Snapshot::get), less the copy of the value.
    ///
    /// ```
    /// # use cupolanettle::{Error, Options};
    /// # let store = Options::new().keys(1_000).open()?;
    /// # let caller = store.caller()?;
    /// caller.put(7, 70)?;
    /// let snapshot = caller.snapshot()?;
    /// caller.remove(7)?;
    /// assert!(snapshot.contains_key(7) && !caller.contains_key(7));
    /// # Ok::<(), Error>(())
    /// ```
    #[must_use]
    #[inline]
    #[doc(alias("contains", "has", "exists"))]
    pub fn contains_key(&self, key: u64) -> bool {
        self.handle.contains_key(key)
    }

    /// Whether no key had a value. It reads up to the first row.
    ///
    /// ```
    /// # use cupolanettle::{Error, Options};
    /// # let store = Options::new().keys(1_000).open()?;
    /// # let caller = store.caller()?;
    /// let before = caller.snapshot()?;
    /// caller.put(7, 70)?;
    /// assert!(before.is_empty() && !caller.snapshot()?.is_empty());
    /// # Ok::<(), Error>(())
    /// ```
    #[must_use]
    pub fn is_empty(&self) -> bool {
        is_empty(&self.handle)
    }

    /// The row of the least key, or `None` if no key had a value. It is a
    /// [`page`](Snapshot::page) of one row.
    ///
    /// # Errors
    ///
    /// [`Memory`].
    ///
    /// ```
    /// # use cupolanettle::{Error, Options};
    /// # let store = Options::new().keys(1_000).open()?;
    /// # let caller = store.caller()?;
    /// for key in [8, 3, 5] {
    ///     caller.put(key, 10 * key)?;
    /// }
    /// let snapshot = caller.snapshot()?;
    /// caller.remove(3)?;
    /// assert_eq!(snapshot.first_key_value()?, Some((3, 30.into())));
    /// # Ok::<(), Error>(())
    /// ```
    #[doc(alias("first", "front", "min", "seek_to_first"))]
    pub fn first_key_value(&self) -> Result<Option<(u64, Value)>, Memory> {
        first_row(&self.handle)
    }

    /// The row of the greatest key, or `None` if no key had a value. It is a
    /// [`page_down`](Snapshot::page_down) of one row.
    ///
    /// # Errors
    ///
    /// [`Memory`].
    ///
    /// ```
    /// # use cupolanettle::{Error, Options};
    /// # let store = Options::new().keys(1_000).open()?;
    /// # let caller = store.caller()?;
    /// for key in [8, 3, 5] {
    ///     caller.put(key, 10 * key)?;
    /// }
    /// let snapshot = caller.snapshot()?;
    /// caller.remove(8)?;
    /// assert_eq!(snapshot.last_key_value()?, Some((8, 80.into())));
    /// # Ok::<(), Error>(())
    /// ```
    #[doc(alias("last", "back", "max", "seek_to_last"))]
    pub fn last_key_value(&self) -> Result<Option<(u64, Value)>, Memory> {
        last_row(&self.handle)
    }

    /// How many keys of the range had a value. It walks all of them and needs no memory.
    ///
    /// ```
    /// # use cupolanettle::{Error, Options};
    /// # let store = Options::new().keys(1_000).open()?;
    /// # let caller = store.caller()?;
    /// caller.put(7, 70)?;
    /// let snapshot = caller.snapshot()?;
    /// caller.put(8, 80)?;
    /// assert_eq!((snapshot.count(..), snapshot.count(8..)), (1, 0));
    /// # Ok::<(), Error>(())
    /// ```
    #[must_use]
    #[doc(alias("len", "size"))]
    pub fn count(&self, keys: impl RangeBounds<u64>) -> u64 {
        self.handle.count(Keys::of(&keys))
    }

    /// The first rows of the range by rising key, at most so many, as they are in this snapshot:
    /// all pages are of one moment. It takes time and memory as
    /// [`Caller::page`](crate::Caller::page).
    ///
    /// # Errors
    ///
    /// [`Memory`].
    ///
    /// ```
    /// # use cupolanettle::{Error, Options};
    /// # let store = Options::new().keys(1_000).open()?;
    /// # let caller = store.caller()?;
    /// # for key in 0..5 {
    /// #     caller.put(key, 10 * key)?;
    /// # }
    /// let snapshot = caller.snapshot()?;
    /// let mut from = Some(0);
    /// let mut keys = Vec::new();
    /// while let Some(first) = from {
    ///     let page = snapshot.page(first.., 2)?;
    ///     keys.extend(page.rows.iter().map(|row| row.0));
    ///     from = page.next;
    /// }
    /// assert_eq!(keys, [0, 1, 2, 3, 4]);
    /// # Ok::<(), Error>(())
    /// ```
    pub fn page(&self, keys: impl RangeBounds<u64>, most: usize) -> Result<Page, Memory> {
        let keys = Keys::of(&keys);
        read_page(most, |room, rows| self.handle.page(keys, room, rows))
    }

    /// The last rows of the range by falling key, at most so many, as they are in this snapshot.
    /// The next page ends at the key that is told as the next one. It takes time and memory as
    /// [`Caller::page_down`](crate::Caller::page_down).
    ///
    /// # Errors
    ///
    /// [`Memory`].
    ///
    /// ```
    /// # use cupolanettle::{Error, Options};
    /// # let store = Options::new().keys(1_000).open()?;
    /// # let caller = store.caller()?;
    /// # for key in 0..5 {
    /// #     caller.put(key, 10 * key)?;
    /// # }
    /// let snapshot = caller.snapshot()?;
    /// let page = snapshot.page_down(.., 2)?;
    /// assert_eq!(page.rows, [(4, 40.into()), (3, 30.into())]);
    /// let page = snapshot.page_down(..=page.next.unwrap(), 9)?;
    /// assert_eq!((page.rows.len(), page.next), (3, None));
    /// # Ok::<(), Error>(())
    /// ```
    #[doc(alias("prev", "reverse", "descending"))]
    pub fn page_down(&self, keys: impl RangeBounds<u64>, most: usize) -> Result<Page, Memory> {
        let keys = Keys::of(&keys);
        read_page(most, |room, rows| self.handle.page_down(keys, room, rows))
    }

    /// An iterator over the rows of the range by rising key, as they are in this snapshot.
    ///
    /// It reads 64 rows at first, then up to 512 at a time. An item is [`Memory`] where memory ran out.
    ///
    /// ```
    /// # use cupolanettle::{Error, Options};
    /// # let store = Options::new().keys(1_000).open()?;
    /// # let caller = store.caller()?;
    /// # for key in 0..5 {
    /// #     caller.put(key, 10 * key)?;
    /// # }
    /// let snapshot = caller.snapshot()?;
    /// let rows = snapshot.range(..=2).collect::<Result<Vec<_>, _>>()?;
    /// assert_eq!(rows, [(0, 0.into()), (1, 10.into()), (2, 20.into())]);
    /// # Ok::<(), Error>(())
    /// ```
    #[doc(alias("iterator", "cursor", "scan"))]
    pub fn range(&self, keys: impl RangeBounds<u64>) -> Range<&Snapshot> {
        Range::new(self, Keys::of(&keys))
    }

    /// An iterator over all rows by rising key: [`range`](Snapshot::range) of all keys.
    ///
    /// ```
    /// # use cupolanettle::{Error, Options};
    /// # let store = Options::new().keys(1_000).open()?;
    /// # let caller = store.caller()?;
    /// caller.put(1, 10)?;
    /// caller.put(2, 20)?;
    /// let snapshot = caller.snapshot()?;
    /// let mut rows = snapshot.iter();
    /// assert_eq!(rows.next().transpose()?, Some((1, 10.into())));
    /// assert_eq!(rows.count(), 1);
    /// # Ok::<(), Error>(())
    /// ```
    #[must_use]
    pub fn iter(&self) -> Range<&Snapshot> {
        self.range(..)
    }

    /// Writes all rows of the snapshot into another store, such as a larger one, and answers how
    /// many those were. Other rows of that store stay.
    ///
    /// The rows are those of one moment of this store; what is written to it meanwhile is not among
    /// them. **In the other store it is not one moment**: a caller of its own writes the rows, in
    /// [batches](crate::Caller::batch) of up to 64. A program that goes over to a larger store ends
    /// its writes first, then copies, and then writes to the other one.
    ///
    /// It takes the time of a read and a write of each row, and memory for 64 rows. While the
    /// snapshot is open, this store keeps [old versions](crate::Options::versions).
    ///
    /// # Errors
    ///
    /// [`CopyError`], with the rows written that it came to before. The same call may be made
    /// again.
    ///
    /// ```
    /// # use cupolanettle::{Error, Options, Refused};
    /// let small = Options::new().keys(100).epoch(4).open()?;
    /// let caller = small.caller()?;
    /// let full = (0..).find(|&key| caller.put(key, key) == Err(Refused::RunFull)).unwrap();
    ///
    /// let large = Options::new().keys(1_000).open()?;
    /// assert_eq!(small.snapshot()?.copy_to(&large)?, full);
    /// large.caller()?.put(full, full)?;
    /// # Ok::<(), Error>(())
    /// ```
    #[doc(alias("clone", "backup", "resize", "migrate", "grow"))]
    pub fn copy_to(&self, store: &Store) -> Result<u64, CopyError> {
        let caller = store.caller()?;
        let mut copied = 0;
        let mut rows = Vec::new();
        let mut left = Some(Keys::of(&..));
        while let Some(keys) = left {
            let next = self.handle.page(keys, ROWS_AT_A_TIME, &mut rows)?;
            caller.write_rows(&rows)?;
            copied += rows.len() as u64;
            left = next.map(|first| Keys { first, ..keys });
        }
        Ok(copied)
    }
}

/// All rows by rising key, as of [`iter`](Snapshot::iter).
///
/// ```
/// # use cupolanettle::{Error, Options};
/// # let store = Options::new().keys(1_000).open()?;
/// # let caller = store.caller()?;
/// caller.put(1, 10)?;
/// let snapshot = caller.snapshot()?;
/// for row in &snapshot {
///     let (key, value) = row?;
///     assert_eq!((key, value), (1, 10.into()));
/// }
/// # Ok::<(), Error>(())
/// ```
impl<'a> IntoIterator for &'a Snapshot {
    type Item = Result<(u64, Value), Memory>;
    type IntoIter = Range<&'a Snapshot>;

    fn into_iter(self) -> Range<&'a Snapshot> {
        self.iter()
    }
}

/// All rows by rising key, by an iterator that has the snapshot, and drops it at its own end.
///
/// ```
/// # use cupolanettle::{Error, Options};
/// # let store = Options::new().keys(1_000).open()?;
/// # let caller = store.caller()?;
/// caller.put(1, 10)?;
/// let rows = store.snapshot()?.into_iter().collect::<Result<Vec<_>, _>>()?;
/// assert_eq!(rows, [(1, 10.into())]);
/// # Ok::<(), Error>(())
/// ```
impl IntoIterator for Snapshot {
    type Item = Result<(u64, Value), Memory>;
    type IntoIter = Range<Snapshot>;

    fn into_iter(self) -> Range<Snapshot> {
        Range::new(self, Keys::of(&..))
    }
}

impl fmt::Debug for Snapshot {
    fn fmt(&self, f: &mut fmt::Formatter<'_>) -> fmt::Result {
        f.debug_struct("Snapshot")
            .field("number", &self.number())
            .field("time", &self.time())
            .finish_non_exhaustive()
    }
}
