//! Reads of many keys at one moment, by falling key, and batches with conditions.
use super::Caller;
use crate::batch::Batch;
use crate::conditions::{Conditions, Unmet};
use crate::error::{BatchIfError, Memory, Refused};
use crate::range::{last_row, read_many, read_page, Keys, Page};
use crate::value::Value;
use crate::Time;
use cupolanettle_sys as raw;
use std::ops::RangeBounds;

impl Caller {
    /// The values of the keys at one moment, each at the place of its key. It costs less than as
    /// many calls of [`get`](Caller::get), and takes memory for the values. More than 256 keys are
    /// read in parts, under a snapshot of its own.
    ///
    /// # Errors
    ///
    /// [`Memory`].
    ///
    /// ```
    /// # use cupolanettle::{Error, Options};
    /// let store = Options::new().keys(1_000).open()?;
    /// let caller = store.caller()?;
    /// caller.put(1, 10)?;
    /// caller.put(2, [20, 21])?;
    /// assert_eq!(caller.get_many(&[2, 3, 1])?, [Some([20, 21].into()), None, Some(10.into())]);
    /// # Ok::<(), Error>(())
    /// ```
    #[doc(alias("multi_get", "get_all", "mget"))]
    pub fn get_many(&self, keys: &[u64]) -> Result<Vec<Option<Value>>, Memory> {
        read_many(&self.handle, keys)
    }

    /// As [`get_many`](Caller::get_many), of an array, without memory.
    ///
    /// ```
    /// # use cupolanettle::{Error, Options};
    /// let store = Options::new().keys(1_000).open()?;
    /// let caller = store.caller()?;
    /// caller.put(1, 10)?;
    /// let [one, other] = caller.get_array([1, 2]);
    /// assert_eq!((one, other), (Some(10.into()), None));
    /// # Ok::<(), Error>(())
    /// ```
    #[allow(clippy::must_use_candidate)] // a read moves the caller's time, too
    pub fn get_array<const N: usize>(&self, keys: [u64; N]) -> [Option<Value>; N] {
        self.handle.get_array(keys)
    }

    /// The row of the greatest key, or `None` if no key has a value. It is a
    /// [`page_down`](Caller::page_down) of one row.
    ///
    /// The last row of a range is `caller.page_down(first..last, 1)`.
    ///
    /// # Errors
    ///
    /// [`Memory`].
    ///
    /// ```
    /// # use cupolanettle::{Error, Options};
    /// let store = Options::new().keys(1_000).open()?;
    /// let caller = store.caller()?;
    /// assert_eq!(caller.last_key_value()?, None);
    /// for key in [8, 3, 5] {
    ///     caller.put(key, 10 * key)?;
    /// }
    /// assert_eq!(caller.last_key_value()?, Some((8, 80.into())));
    /// # Ok::<(), Error>(())
    /// ```
    #[doc(alias("last", "back", "max", "seek_to_last"))]
    pub fn last_key_value(&self) -> Result<Option<(u64, Value)>, Memory> {
        last_row(&self.handle)
    }

    /// The last rows of the range by falling key, at most so many, as they are at one moment. The
    /// next page ends at the key that is told as the next one.
    ///
    /// It takes memory as [`page`](Caller::page), and up to four times as long: it is read in
    /// windows, each upwards.
    ///
    /// # Errors
    ///
    /// [`Memory`].
    ///
    /// ```
    /// # use cupolanettle::{Error, Options};
    /// let store = Options::new().keys(1_000).open()?;
    /// let caller = store.caller()?;
    /// for key in 0..5 {
    ///     caller.put(key, 10 * key)?;
    /// }
    /// let page = caller.page_down(..4, 2)?;
    /// assert_eq!(page.rows, [(3, 30.into()), (2, 20.into())]);
    /// assert_eq!(page.next, Some(1));
    /// # Ok::<(), Error>(())
    /// ```
    #[doc(alias("prev", "reverse", "descending"))]
    pub fn page_down(&self, keys: impl RangeBounds<u64>, most: usize) -> Result<Page, Memory> {
        let keys = Keys::of(&keys);
        read_page(most, |room, rows| self.handle.page_down(keys, room, rows))
    }

    /// Makes all writes of the batch at one moment, as [`batch`](Caller::batch), if all conditions
    /// hold at that moment, and answers the time of the first one. An empty batch only tests the
    /// conditions: the answer is a time at which all of them hold.
    ///
    /// So a caller reads, decides, and writes if what it read still stands. No other write runs
    /// while it tests: that costs a [`get`](Caller::get) for each condition of a key, and a visit
    /// of each key of the ranges. It takes memory while it runs, and waits as
    /// [`batch`](Caller::batch).
    ///
    /// # Errors
    ///
    /// [`BatchIfError`], with nothing written; [`BatchIfError::Unmet`] if a condition does not
    /// hold.
    ///
    /// ```
    /// # use cupolanettle::{Batch, BatchIfError, Caller, Conditions, Error, Options};
    /// /// Moves so much from one account to another one, if that has it.
    /// fn transfer(caller: &Caller, from: u64, to: u64, amount: u64) -> Result<bool, Error> {
    ///     loop {
    ///         let [source, target] = caller.get_array([from, to]);
    ///         let (old, other) = (source.map_or(0, |v| v[0]), target.map_or(0, |v| v[0]));
    ///         if old < amount {
    ///             return Ok(false);
    ///         }
    ///         let mut read = Conditions::new();
    ///         read.still(from, source).still(to, target);
    ///         let mut batch = Batch::new();
    ///         batch.set(from, old - amount).set(to, other + amount);
    ///         match caller.batch_if(&read, &batch) {
    ///             Ok(_) => return Ok(true),
    ///             Err(BatchIfError::Unmet(_)) => {} // another thread was faster: again
    ///             Err(refused) => return Err(refused.into()),
    ///         }
    ///     }
    /// }
    /// # let store = Options::new().keys(1_000).open()?;
    /// # let caller = store.caller()?;
    /// # caller.put(1, 10)?;
    /// # assert!(transfer(&caller, 1, 2, 7)? && !transfer(&caller, 1, 2, 7)?);
    /// # assert_eq!(caller.get_array([1, 2]), [Some(3.into()), Some(7.into())]);
    /// # Ok::<(), Error>(())
    /// ```
    #[doc(alias("transaction", "txn", "multi_put_if", "compare_and_set"))]
    pub fn batch_if(&self, conditions: &Conditions, batch: &Batch) -> Result<Time, BatchIfError> {
        let (rows, counts) = (conditions.rows(), conditions.counts());
        match self.handle.batch_if(rows, counts, batch.rows()) {
            (raw::OK, _) => Ok(self.time()),
            (raw::KEPT, index) => Err(Unmet { time: self.time(), index }.into()),
            (raw::BAD_BATCH, _) => Err(BatchIfError::TooLong),
            (raw::MEMORY, _) => Err(BatchIfError::Memory),
            (code, _) => Err(Refused::of(code).into()),
        }
    }
}
