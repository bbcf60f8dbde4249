//! Transactions.
use crate::error::{Conflict, Memory, TransactError};
use crate::library::{Code, OpenTransaction};
use crate::range::{pair, Keys, Page};
use crate::value::Value;
use cupolanettle_sys as raw;
use std::fmt;
use std::ops::RangeBounds;

/// A page is read in parts of so many rows.
const ROWS_OF_A_PART: usize = 1_024;

/// Reads the map of one moment, which is that of its first read, with its own writes in it. They
/// are made at one later moment, if all that it read still has the same values then.
///
/// [`Caller::transact`](crate::Caller::transact) runs a closure on one until they are. Nobody waits
/// for it meanwhile. From its first read on it is a snapshot, with a seat, and it keeps in memory
/// what it read and is to write.
///
/// Each call of it is refused with [`TransactError::Memory`] where memory runs out, and its first
/// read with [`TransactError::NoSeat`] where no seat is left.
///
/// ```
/// use cupolanettle::{Error, Options};
///
/// let store = Options::new().keys(1_000).open()?;
/// let caller = store.caller()?;
/// caller.put(1, 100)?;
/// let left = caller.transact(|t| {
///     let old = t.get(1)?.map_or(0, |value| value[0]);
///     t.put(1, old - 30)?;
///     t.put(2, 30)?;
///     assert_eq!(t.get(2)?, Some(30.into()));
///     Ok::<_, Error>(old - 30)
/// })?;
/// assert_eq!((left, caller.get(2)), (70, Some(30.into())));
/// # Ok::<(), Error>(())
/// ```
#[doc(alias("txn", "Txn", "OptimisticTransaction"))]
pub struct Transaction<'a> {
    open: OpenTransaction<'a>,
}

impl<'a> Transaction<'a> {
    pub(crate) fn of(open: OpenTransaction<'a>) -> Transaction<'a> {
        Transaction { open }
    }

    /// The value that the key has to it: what it wrote last, or what it reads.
    ///
    /// # Errors
    ///
    /// [`TransactError::NoSeat`], [`TransactError::Memory`].
    ///
    /// ```
    /// # use cupolanettle::{Error, Options};
    /// # let store = Options::new().keys(1_000).open()?;
    /// # let caller = store.caller()?;
    /// caller.put(7, 70)?;
    /// let found = caller.transact(|t| t.get(7).map_err(Error::from))?;
    /// assert_eq!(found, Some(70.into()));
    /// # Ok::<(), Error>(())
    /// ```
    pub fn get(&mut self, key: u64) -> Result<Option<Value>, TransactError> {
        match self.open.get(key) {
            (raw::OK | raw::NOT_FOUND, found) => Ok(Value::from_raw(found)),
            (code, _) => Err(TransactError::of(code)),
        }
    }

    /// The values of the keys, each at the place of its key.
    ///
    /// # Errors
    ///
    /// [`TransactError::NoSeat`], [`TransactError::Memory`].
    ///
    /// ```
    /// # use cupolanettle::{Error, Options};
    /// # let store = Options::new().keys(1_000).open()?;
    /// # let caller = store.caller()?;
    /// caller.put(7, 70)?;
    /// let found = caller.transact(|t| t.get_many(&[8, 7]).map_err(Error::from))?;
    /// assert_eq!(found, [None, Some(70.into())]);
    /// # Ok::<(), Error>(())
    /// ```
    pub fn get_many(&mut self, keys: &[u64]) -> Result<Vec<Option<Value>>, TransactError> {
        let mut found = Vec::new();
        let mut values = Vec::new();
        found.try_reserve_exact(keys.len()).map_err(|_| Memory)?;
        values.try_reserve_exact(keys.len()).map_err(|_| Memory)?;
        found.resize(keys.len(), raw::Value::default());
        match self.open.get_all(keys, &mut found) {
            raw::OK => values.extend(found.into_iter().map(Value::from_raw)),
            code => return Err(TransactError::of(code)),
        }
        Ok(values)
    }

    /// The first rows of the range by rising key, at most so many, with its own writes among them.
    /// It has read the range up to the key that is told as the next one, or all of it: what others
    /// change there is a conflict. It takes memory for the rows that there are.
    ///
    /// # Errors
    ///
    /// [`TransactError::NoSeat`], [`TransactError::Memory`].
    ///
    /// ```
    /// # use cupolanettle::{Error, Options};
    /// # let store = Options::new().keys(1_000).open()?;
    /// # let caller = store.caller()?;
    /// caller.put(7, 70)?;
    /// let page = caller.transact(|t| {
    ///     t.put(3, 30)?;
    ///     Ok::<_, Error>(t.page(..10, 1)?)
    /// })?;
    /// assert_eq!((page.rows, page.next), (vec![(3, 30.into())], Some(7)));
    /// # Ok::<(), Error>(())
    /// ```
    pub fn page(
        &mut self,
        keys: impl RangeBounds<u64>,
        most: usize,
    ) -> Result<Page, TransactError> {
        self.read_page(Keys::of(&keys), false, most)
    }

    /// The last rows of the range by falling key, at most so many, with its own writes among them.
    /// The next page ends at the key that is told as the next one, and down to that it has read the
    /// range, or all of it, as by [`page`](Transaction::page).
    ///
    /// # Errors
    ///
    /// [`TransactError::NoSeat`], [`TransactError::Memory`].
    ///
    /// ```
    /// # use cupolanettle::{Error, Options};
    /// # let store = Options::new().keys(1_000).open()?;
    /// # let caller = store.caller()?;
    /// caller.put(3, 30)?;
    /// caller.put(5, 50)?;
    /// let page = caller.transact(|t| {
    ///     t.put(7, 70)?;
    ///     Ok::<_, Error>(t.page_down(..10, 2)?)
    /// })?;
    /// assert_eq!((page.rows, page.next), (vec![(7, 70.into()), (5, 50.into())], Some(3)));
    /// # Ok::<(), Error>(())
    /// ```
    #[doc(alias("prev", "reverse", "descending"))]
    pub fn page_down(
        &mut self,
        keys: impl RangeBounds<u64>,
        most: usize,
    ) -> Result<Page, TransactError> {
        self.read_page(Keys::of(&keys), true, most)
    }

    fn read_page(
        &mut self,
        mut left: Keys,
        falls: bool,
        most: usize,
    ) -> Result<Page, TransactError> {
        let mut page = Page::default();
        loop {
            let room = ROWS_OF_A_PART.min(most - page.rows.len());
            page.next = self.read_part(left, falls, room, &mut page.rows)?;
            match page.next {
                Some(last) if falls && page.rows.len() < most => left.last = last,
                Some(first) if page.rows.len() < most => left.first = first,
                _ => return Ok(page),
            }
        }
    }

    /// Adds the first rows of the range, or the last ones, up to so many, and answers the key of
    /// the next one. Parts that follow one another are of one moment.
    fn read_part(
        &mut self,
        keys: Keys,
        falls: bool,
        room: usize,
        rows: &mut Vec<(u64, Value)>,
    ) -> Result<Option<u64>, TransactError> {
        let mut read = Vec::new();
        read.try_reserve_exact(room).map_err(|_| Memory)?;
        rows.try_reserve(room).map_err(|_| Memory)?;
        read.resize(room, raw::Row::default());
        match self.open.page(keys, falls, &mut read) {
            (raw::OK, end) => {
                rows.extend(read.iter().filter_map(pair));
                Ok(end.more.then_some(end.next))
            }
            (code, _) => Err(TransactError::of(code)),
        }
    }

    /// The row of the least key of the range that has a value to it, if there is one. It has read
    /// the range up to that key, or all of it: what others change behind it is no conflict.
    ///
    /// # Errors
    ///
    /// [`TransactError::NoSeat`], [`TransactError::Memory`].
    ///
    /// ```
    /// # use cupolanettle::{Error, Options};
    /// # let store = Options::new().keys(1_000).open()?;
    /// # let caller = store.caller()?;
    /// caller.put(3, 30)?;
    /// caller.put(5, 50)?;
    /// let next = caller.transact(|t| {
    ///     t.remove(3)?;
    ///     Ok::<_, Error>(t.first(..)?)
    /// })?;
    /// assert_eq!(next, Some((5, 50.into())));
    /// # Ok::<(), Error>(())
    /// ```
    #[doc(alias("first_key_value", "front", "min", "seek"))]
    pub fn first(
        &mut self,
        keys: impl RangeBounds<u64>,
    ) -> Result<Option<(u64, Value)>, TransactError> {
        found(self.open.end(Keys::of(&keys), false))
    }

    /// The row of the greatest key of the range that has a value to it, if there is one, as
    /// [`first`](Transaction::first) that of the least.
    ///
    /// # Errors
    ///
    /// [`TransactError::NoSeat`], [`TransactError::Memory`].
    ///
    /// ```
    /// # use cupolanettle::{Error, Options};
    /// # let store = Options::new().keys(1_000).open()?;
    /// # let caller = store.caller()?;
    /// caller.put(5, 50)?;
    /// let key = caller.transact(|t| {
    ///     let key = t.last(..100)?.map_or(0, |(last, _)| last + 1);
    ///     t.put(key, 10 * key)?;
    ///     Ok::<_, Error>(key)
    /// })?;
    /// assert_eq!((key, caller.get(6)), (6, Some(60.into())));
    /// # Ok::<(), Error>(())
    /// ```
    #[doc(alias("last_key_value", "back", "max", "seek_for_prev"))]
    pub fn last(
        &mut self,
        keys: impl RangeBounds<u64>,
    ) -> Result<Option<(u64, Value)>, TransactError> {
        found(self.open.end(Keys::of(&keys), true))
    }

    /// How many keys of the range have a value to it. It has read their number: others may write
    /// other values there, or remove as many keys as they add, but for the keys that it has written
    /// itself. It walks all of them, once more as it ends.
    ///
    /// # Errors
    ///
    /// [`TransactError::NoSeat`], [`TransactError::Memory`].
    ///
    /// ```
    /// # use cupolanettle::{Error, Options};
    /// # let store = Options::new().keys(1_000).open()?;
    /// # let caller = store.caller()?;
    /// caller.put(7, 70)?;
    /// let counts = caller.transact(|t| {
    ///     t.put(8, 80)?;
    ///     Ok::<_, Error>((t.count(..)?, t.count(8..)?))
    /// })?;
    /// assert_eq!(counts, (2, 1));
    /// # Ok::<(), Error>(())
    /// ```
    #[doc(alias("len", "size"))]
    pub fn count(&mut self, keys: impl RangeBounds<u64>) -> Result<u64, TransactError> {
        match self.open.count(Keys::of(&keys)) {
            (raw::OK, count) => Ok(count),
            (code, _) => Err(TransactError::of(code)),
        }
    }

    /// Notes a write of the value at the key.
    ///
    /// # Errors
    ///
    /// [`TransactError::Memory`].
    ///
    /// ```
    /// # use cupolanettle::{Error, Options};
    /// # let store = Options::new().keys(1_000).open()?;
    /// # let caller = store.caller()?;
    /// caller.transact(|t| t.put(7, [70, 71]).map_err(Error::from))?;
    /// assert_eq!(caller.get(7), Some([70, 71].into()));
    /// # Ok::<(), Error>(())
    /// ```
    #[doc(alias("insert", "set"))]
    pub fn put(&mut self, key: u64, value: impl Into<Value>) -> Result<(), TransactError> {
        noted(self.open.put(key, &value.into()))
    }

    /// Notes the removal of the key.
    ///
    /// # Errors
    ///
    /// [`TransactError::Memory`].
    ///
    /// ```
    /// # use cupolanettle::{Error, Options};
    /// # let store = Options::new().keys(1_000).open()?;
    /// # let caller = store.caller()?;
    /// caller.put(7, 70)?;
    /// caller.transact(|t| t.remove(7).map_err(Error::from))?;
    /// assert_eq!(caller.get(7), None);
    /// # Ok::<(), Error>(())
    /// ```
    #[doc(alias("delete"))]
    pub fn remove(&mut self, key: u64) -> Result<(), TransactError> {
        noted(self.open.remove(key))
    }

    /// Reads the key, adds to its word, which counts as 0 if it has no value, and notes the sum.
    /// The answer is the sum; or `None`, and nothing was noted, if the value has several words or
    /// the sum passes 2^64 - 1.
    ///
    /// # Errors
    ///
    /// [`TransactError::NoSeat`], [`TransactError::Memory`].
    ///
    /// ```
    /// # use cupolanettle::{Error, Options};
    /// # let store = Options::new().keys(1_000).open()?;
    /// # let caller = store.caller()?;
    /// let sum = caller.transact(|t| {
    ///     t.add(7, 5)?;
    ///     Ok::<_, Error>(t.add(7, 1)?)
    /// })?;
    /// assert_eq!((sum, caller.get(7)), (Some(6), Some(6.into())));
    /// # Ok::<(), Error>(())
    /// ```
    #[doc(alias("increment"))]
    pub fn add(&mut self, key: u64, by: u64) -> Result<Option<u64>, TransactError> {
        match self.open.add(key, by) {
            (raw::OK, changed) => Ok(Some(changed.after.words[0])),
            (raw::KEPT, _) => Ok(None),
            (code, _) => Err(TransactError::of(code)),
        }
    }

    /// Makes its writes: whether nothing that it read has changed.
    pub(crate) fn commit(&mut self) -> Result<Result<(), Conflict>, TransactError> {
        match self.open.commit() {
            raw::OK => Ok(Ok(())),
            raw::CONFLICT => Ok(Err(Conflict)),
            code => Err(TransactError::of(code)),
        }
    }
}

fn found((code, row): (Code, raw::Row)) -> Result<Option<(u64, Value)>, TransactError> {
    match code {
        raw::OK => Ok(pair(&row)),
        raw::NOT_FOUND => Ok(None),
        code => Err(TransactError::of(code)),
    }
}

fn noted(code: Code) -> Result<(), TransactError> {
    match code {
        raw::OK => Ok(()),
        code => Err(TransactError::of(code)),
    }
}

impl fmt::Debug for Transaction<'_> {
    fn fmt(&self, f: &mut fmt::Formatter<'_>) -> fmt::Result {
        f.debug_struct("Transaction").finish_non_exhaustive()
    }
}
