//! Transactions.
use super::Caller;
use crate::error::{Conflict, TransactError};
use crate::transaction::Transaction;

/// So often a transaction is run, unless another bound is given.
const TRIES: u32 = 100;

impl Caller {
    /// Runs the closure on a [`Transaction`], and makes the writes that it notes at one moment, if
    /// all that it read still stands then. If not, it runs again, after a pause that grows up to a
    /// millisecond, up to 100 times. The answer is that of the closure.
    ///
    /// So transactions are serializable: they have the effect that they would have one after
    /// another. Nobody waits while the closure runs. As it may run several times, it should do
    /// nothing but read and write by its transaction. If it answers an error, that is the answer,
    /// and nothing is written. A transaction that notes no write runs once.
    ///
    /// # Errors
    ///
    /// Those of the closure, and [`TransactError`], with nothing written;
    /// [`TransactError::Conflict`] if it ran 100 times.
    ///
    /// ```
    /// # use cupolanettle::{Caller, Error, Options};
    /// /// Moves so much from one account to another one: whether that has it.
    /// fn transfer(caller: &Caller, from: u64, to: u64, amount: u64) -> Result<bool, Error> {
    ///     caller.transact(|t| {
    ///         let old = t.get(from)?.map_or(0, |value| value[0]);
    ///         if old < amount {
    ///             return Ok(false);
    ///         }
    ///         t.put(from, old - amount)?;
    ///         t.add(to, amount)?;
    ///         Ok(true)
    ///     })
    /// }
    /// # let store = Options::new().keys(1_000).open()?;
    /// # let caller = store.caller()?;
    /// # caller.put(1, 10)?;
    /// # assert!(transfer(&caller, 1, 2, 7)? && !transfer(&caller, 1, 2, 7)?);
    /// # assert_eq!(caller.get_array([1, 2]), [Some(3.into()), Some(7.into())]);
    /// # Ok::<(), Error>(())
    /// ```
    #[doc(alias("transaction", "txn", "begin", "commit"))]
    pub fn transact<T, E, F>(&self, run: F) -> Result<T, E>
    where
        F: FnMut(&mut Transaction<'_>) -> Result<T, E>,
        E: From<TransactError>,
    {
        self.transact_up_to(TRIES, run)
    }

    /// As [`transact`](Caller::transact), but it runs so many times at most, and once at least.
    ///
    /// # Errors
    ///
    /// As of [`transact`](Caller::transact).
    ///
    /// ```
    /// # use cupolanettle::{Error, Options, TransactError};
    /// # let store = Options::new().keys(1_000).open()?;
    /// # let caller = store.caller()?;
    /// let other = store.caller()?;
    /// let ended = caller.transact_up_to(1, |t| {
    ///     t.add(7, 1)?;
    ///     other.add(7, 1).unwrap(); // is faster
    ///     Ok::<_, TransactError>(())
    /// });
    /// assert_eq!(ended, Err(TransactError::Conflict));
    /// # Ok::<(), Error>(())
    /// ```
    pub fn transact_up_to<T, E, F>(&self, tries: u32, mut run: F) -> Result<T, E>
    where
        F: FnMut(&mut Transaction<'_>) -> Result<T, E>,
        E: From<TransactError>,
    {
        let open = self.handle.transaction().map_err(TransactError::from)?;
        let mut transaction = Transaction::of(open);
        let mut made = 0;
        loop {
            let answer = run(&mut transaction)?;
            made += 1;
            match transaction.commit()? {
                Ok(()) => return Ok(answer),
                Err(Conflict) if made < tries => {}
                Err(conflict) => return Err(TransactError::from(conflict).into()),
            }
        }
    }
}
