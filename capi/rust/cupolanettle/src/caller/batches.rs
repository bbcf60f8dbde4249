//! Batches of writes.
use super::Caller;
use crate::batch::Batch;
use crate::error::{BatchError, Refused};
use crate::Time;
use cupolanettle_sys as raw;

impl Caller {
    /// Makes all writes of the batch at one moment: each read has all of them or none. It answers
    /// the time of the first one; the others follow it, in their order.
    ///
    /// It takes room for all of them in one epoch, and memory while it runs. It lets no other
    /// write run beside it, but every read, and waits as [`put`](Caller::put).
    ///
    /// # Errors
    ///
    /// [`BatchError`], with nothing written; [`Refused::RunFull`] if one of its keys would be one
    /// more.
    ///
    /// ```
    /// # use cupolanettle::{Batch, Caller, Error, Options};
    /// /// Gives the rooms of both guests to each other.
    /// fn swap(caller: &Caller, guests: [u64; 2]) -> Result<(), Error> {
    ///     let now = caller.snapshot()?;
    ///     let mut batch = Batch::new();
    ///     for (guest, other) in [(guests[0], guests[1]), (guests[1], guests[0])] {
    ///         match now.get(other) {
    ///             Some(room) => batch.set(guest, room),
    ///             None => batch.remove(guest),
    ///         };
    ///     }
    ///     caller.batch(&batch)?;
    ///     Ok(())
    /// }
    /// # let store = Options::new().keys(1_000).open()?;
    /// # let caller = store.caller()?;
    /// # caller.put(1, 10)?;
    /// # swap(&caller, [1, 2])?;
    /// # assert_eq!((caller.get(1), caller.get(2)), (None, Some(10.into())));
    /// # Ok::<(), Error>(())
    /// ```
    #[doc(alias("write_batch", "write", "apply", "commit"))]
    pub fn batch(&self, batch: &Batch) -> Result<Time, BatchError> {
        match self.handle.batch(batch.rows()) {
            raw::OK => Ok(self.time()),
            raw::EMPTY_BATCH => Err(BatchError::Empty),
            raw::BAD_BATCH => Err(BatchError::TooLong),
            raw::MEMORY => Err(BatchError::Memory),
            code => Err(Refused::of(code).into()),
        }
    }
}
