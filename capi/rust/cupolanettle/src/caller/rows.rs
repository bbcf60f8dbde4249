//! Writes of many rows, batch after batch, and rows that are taken out.
use super::Caller;
use crate::error::{CopyError, Refused, RetainError};
use crate::library::Code;
use crate::range::{pair, Keys};
use crate::value::Value;
use cupolanettle_sys as raw;
use std::ops::RangeBounds;

impl Caller {
    /// Removes the rows of the range, and answers how many those were.
    ///
    /// **It is not one moment.** It reads [pages](Caller::page) and removes the keys of each by a
    /// [batch](Caller::batch), of up to 64 rows, or a quarter of an epoch if that is less: others
    /// see some of the rows gone, and some not yet. A key that was read is removed with the value
    /// that it has by then. A key that another thread gives its first value once its place was read
    /// stays. [`retain`](Caller::retain) removes no value that it has not seen.
    ///
    /// It takes the time of a read and a write of each row, the room of a write for each, and
    /// memory for 64 rows. It holds no snapshot, and waits as [`batch`](Caller::batch).
    ///
    /// # Errors
    ///
    /// [`RetainError`], with the rows removed that it came to before: the same call goes on from
    /// there.
    ///
    /// ```
    /// # use cupolanettle::{Error, Options};
    /// let store = Options::new().keys(1_000).open()?;
    /// let caller = store.caller()?;
    /// for key in 0..500 {
    ///     caller.put(key, key)?;
    /// }
    /// assert_eq!(caller.remove_range(100..400)?, 300);
    /// assert_eq!(caller.remove_range(100..400)?, 0);
    /// assert_eq!(caller.count(..), 200);
    /// # Ok::<(), Error>(())
    /// ```
    #[doc(alias("delete_range", "erase_range", "drain"))]
    pub fn remove_range(&self, keys: impl RangeBounds<u64>) -> Result<u64, RetainError> {
        match self.handle.remove_range(Keys::of(&keys)) {
            (raw::OK, removed) => Ok(removed),
            (raw::MEMORY, _) => Err(RetainError::Memory),
            (code, _) => Err(RetainError::Refused(Refused::of(code))),
        }
    }

    /// Removes all rows, and answers how many those were: [`remove_range`](Caller::remove_range)
    /// of all keys. **It is not one moment**: a key that another thread writes meanwhile may stay.
    ///
    /// # Errors
    ///
    /// As of [`remove_range`](Caller::remove_range).
    ///
    /// ```
    /// # use cupolanettle::{Error, Options};
    /// let store = Options::new().keys(1_000).open()?;
    /// let caller = store.caller()?;
    /// caller.put(7, 70)?;
    /// assert_eq!(caller.clear()?, 1);
    /// assert!(caller.is_empty());
    /// # Ok::<(), Error>(())
    /// ```
    #[doc(alias("truncate", "remove_all", "delete_all"))]
    pub fn clear(&self) -> Result<u64, RetainError> {
        self.remove_range(..)
    }

    /// Removes the row of the least key of the range, and answers it; `None` if no key of the range
    /// has a value.
    ///
    /// That is one step: at its moment the row was the first of the range. So threads that take rows
    /// out of one range get each of them once. It reads the row, and removes it by a
    /// [`batch_if`](Caller::batch_if) that no other key is before it, both again while other writes
    /// come between. It waits and takes memory as that does.
    ///
    /// # Errors
    ///
    /// [`RetainError`], with nothing removed.
    ///
    /// ```
    /// # use cupolanettle::{Error, Options};
    /// let store = Options::new().keys(1_000).open()?;
    /// let caller = store.caller()?;
    /// for key in [8, 3, 5] {
    ///     caller.put(key, 10 * key)?;
    /// }
    /// assert_eq!(caller.pop_first(4..)?, Some((5, 50.into())));
    /// assert_eq!(caller.pop_first(4..=7)?, None);
    /// assert_eq!(caller.count(..), 2);
    /// # Ok::<(), Error>(())
    /// ```
    #[doc(alias("pop_front", "pop_min", "poll_first"))]
    pub fn pop_first(
        &self,
        keys: impl RangeBounds<u64>,
    ) -> Result<Option<(u64, Value)>, RetainError> {
        popped(self.handle.pop_first(Keys::of(&keys)))
    }

    /// Removes the row of the greatest key of the range, and answers it, as
    /// [`pop_first`](Caller::pop_first) that of the least.
    ///
    /// # Errors
    ///
    /// [`RetainError`], with nothing removed.
    ///
    /// ```
    /// # use cupolanettle::{Error, Options};
    /// let store = Options::new().keys(1_000).open()?;
    /// let caller = store.caller()?;
    /// for key in [8, 3, 5] {
    ///     caller.put(key, 10 * key)?;
    /// }
    /// assert_eq!(caller.pop_last(..)?, Some((8, 80.into())));
    /// assert_eq!(caller.pop_last(..3)?, None);
    /// # Ok::<(), Error>(())
    /// ```
    #[doc(alias("pop_back", "pop_max", "poll_last"))]
    pub fn pop_last(
        &self,
        keys: impl RangeBounds<u64>,
    ) -> Result<Option<(u64, Value)>, RetainError> {
        popped(self.handle.pop_last(Keys::of(&keys)))
    }

    /// Writes the rows in batches, each of which has room in an epoch.
    pub(crate) fn write_rows(&self, rows: &[raw::Row]) -> Result<(), CopyError> {
        match self.handle.batch(rows) {
            raw::OK | raw::EMPTY_BATCH => Ok(()),
            raw::BAD_BATCH if rows.len() > 1 => {
                let (first, second) = rows.split_at(rows.len() / 2);
                self.write_rows(first)?;
                self.write_rows(second)
            }
            raw::MEMORY => Err(CopyError::Memory),
            code => Err(CopyError::Refused(Refused::of(code))),
        }
    }
}

fn popped((code, row): (Code, raw::Row)) -> Result<Option<(u64, Value)>, RetainError> {
    match code {
        raw::OK => Ok(pair(&row)),
        raw::NOT_FOUND => Ok(None),
        raw::MEMORY => Err(RetainError::Memory),
        code => Err(RetainError::Refused(Refused::of(code))),
    }
}
