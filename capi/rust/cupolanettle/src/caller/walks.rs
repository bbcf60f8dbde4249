//! Walks: loops that write as they read.
use super::Caller;
use crate::error::{ChangeError, Memory, RetainError};
use crate::range::Keys;
use crate::value::Value;
use crate::walk::Walk;
use std::ops::RangeBounds;

impl Caller {
    /// A weakly consistent iterator over the rows of the range by rising key, for loops that write
    /// as they read: it is no snapshot, keeps no versions and takes no seat.
    ///
    /// It reads up to 64 rows at a time, all of one moment, as [`page`](Caller::page) does. So a
    /// row may have been changed since it was read, and a key that is written where the walk has
    /// read already is not told. No key is told twice, and one that has a value all the time is
    /// told once. For all rows at one moment take a [`range`](Caller::range).
    ///
    /// Each time it reads is a read of this caller, and moves its [`time`](Caller::time). It takes
    /// memory for 64 rows at once, and none while it reads: so no item is an error.
    ///
    /// # Errors
    ///
    /// [`Memory`], of this call alone.
    ///
    /// ```
    /// # use cupolanettle::{Error, Options};
    /// let store = Options::new().keys(1_000).open()?;
    /// let caller = store.caller()?;
    /// for key in 0..500 {
    ///     caller.put(key, key)?;
    /// }
    /// for row in caller.walk(100..)? {
    ///     let (key, value) = row?;
    ///     caller.put(key, 2 * value[0])?;
    /// }
    /// assert_eq!(caller.get(499), Some(998.into()));
    /// # Ok::<(), Error>(())
    /// ```
    ///
    /// Where other threads write the same keys, [`add`](Caller::add), [`replace`](Caller::replace)
    /// or [`update`](Caller::update) changes what the key has by then.
    #[doc(alias("iterator", "cursor", "for_each"))]
    pub fn walk(&self, keys: impl RangeBounds<u64>) -> Result<Walk<'_>, Memory> {
        Ok(Walk::of(self.handle.walk(Keys::of(&keys))?))
    }

    /// Removes the rows of the range that the function does not keep, and answers how many it
    /// removed.
    ///
    /// It is a [`walk`](Caller::walk), and a [`replace`](Caller::replace) by none of each value
    /// that the function answers `false` for. So it never removes a value that the function did
    /// not see: a key that was given another one meanwhile keeps that, and the function is not
    /// asked again.
    ///
    /// The function may call this caller, as it is asked between two calls. If it panics, rows
    /// that were removed before are removed, and the caller goes on as before.
    ///
    /// # Errors
    ///
    /// [`RetainError`], with the rows removed that it came to before.
    ///
    /// ```
    /// # use cupolanettle::{Error, Options};
    /// let store = Options::new().keys(1_000).open()?;
    /// let caller = store.caller()?;
    /// for key in 0..500 {
    ///     caller.put(key, key % 10)?;
    /// }
    /// let removed = caller.retain(100.., |_, value| value[0] != 7)?;
    /// assert_eq!((removed, caller.count(..)), (40, 460));
    ///
    /// assert_eq!(caller.retain(..100, |key, _| key >= 50)?, 50);
    /// # Ok::<(), Error>(())
    /// ```
    #[doc(alias("filter", "remove_if", "extract_if"))]
    pub fn retain<F>(&self, keys: impl RangeBounds<u64>, mut keep: F) -> Result<u64, RetainError>
    where
        F: FnMut(u64, Value) -> bool,
    {
        let mut removed = 0;
        for row in self.walk(keys)? {
            let (key, value) = row?;
            if keep(key, value) {
                continue;
            }
            match self.replace(key, Some(value), None) {
                Ok(_) => removed += 1,
                Err(ChangeError::Kept(_)) => {}
                Err(ChangeError::Refused(refused)) => return Err(refused.into()),
            }
        }
        Ok(removed)
    }
}
