//! Pools of callers.
use crate::caller::Caller;
use crate::error::NoSeat;
use crate::store::Store;
use crate::Time;
use std::fmt;
use std::ops::Deref;
use std::sync::{Condvar, Mutex, MutexGuard, PoisonError};
use std::time::Duration;

/// Callers for more threads than a store has seats: [`Store::pool`] opens it.
///
/// A thread takes a caller for a piece of work, and gives it back by a drop. It sleeps while all of
/// them are taken. Which of the threads that wait is next is not said.
///
/// ```
/// use cupolanettle::{Error, Options};
/// use std::thread;
///
/// let store = Options::new().keys(1_000).open()?;
/// let pool = store.pool(8)?;
/// thread::scope(|scope| {
///     for own in 0..200 {
///         let pool = &pool;
///         scope.spawn(move || pool.take().put(own, own).expect("there is room"));
///     }
/// });
/// assert_eq!(pool.take().count(..), 200);
/// # Ok::<(), Error>(())
/// ```
///
/// **No times run back.** Whoever takes a caller [follows](Caller::follow) all that were given back
/// before: it sees what they wrote and read, and its times are no earlier, whichever caller it
/// gets. What a caller does that is still taken, the others see as of
/// [any caller](crate#what-a-read-sees).
///
/// A panic in a piece of work gives the caller back, and poisons nothing.
///
/// # Snapshots
///
/// A [snapshot](Caller::snapshot) takes a seat of its own, which may be [refused](NoSeat): leave
/// seats for them. One that outlives the piece of work is best one of the
/// [store](Store::snapshot): a caller that is given back with a snapshot open has its writes
/// [refused](crate::Refused::OwnSnapshot) in the next thread, where they would wait else.
#[doc(alias("ThreadPool", "ConnectionPool", "pool"))]
pub struct Pool {
    callers: usize,
    idle: Mutex<Idle>,
    /// Told once for each caller that is given back.
    given_back: Condvar,
}

/// What is not taken.
struct Idle {
    /// There is room for all callers of the pool. The one that was given back last is taken first.
    callers: Vec<Caller>,
    /// All that callers had seen as they were given back.
    seen: Time,
}

impl Store {
    /// Opens a pool of so many callers, from 1 to the 64 seats. More threads than these share it.
    ///
    /// As many callers as processors run pieces of work that do not wait. The other seats are left
    /// for snapshots, iterators and callers.
    ///
    /// # Errors
    ///
    /// [`NoSeat`] where there are not so many seats, with none of them taken.
    ///
    /// # Panics
    ///
    /// If it is to have no caller, as all threads would wait for ever.
    ///
    /// ```
    /// # use cupolanettle::{Error, NoSeat, Options};
    /// let store = Options::new().keys(1_000).open()?;
    /// let pool = store.pool(60)?;
    /// pool.take().put(7, 70)?;
    /// assert_eq!(store.pool(60).err(), Some(NoSeat));
    /// # Ok::<(), Error>(())
    /// ```
    pub fn pool(&self, callers: usize) -> Result<Pool, NoSeat> {
        assert!(callers > 0, "a pool has one caller at least");
        let opened = (0..callers).map(|_| self.caller()).collect::<Result<Vec<_>, _>>()?;
        Ok(Pool {
            callers,
            idle: Mutex::new(Idle { callers: opened, seen: Time::ZERO }),
            given_back: Condvar::new(),
        })
    }
}

impl Pool {
    /// Takes a caller, once one is not taken. It costs a lock, and a read if this caller has not
    /// seen all that others had as they were given back.
    ///
    /// A thread that has one already, and takes another, may wait for itself: where all threads do
    /// so, none goes on.
    ///
    /// ```
    /// # use cupolanettle::{Error, Options};
    /// let store = Options::new().keys(1_000).open()?;
    /// let pool = store.pool(2)?;
    /// let caller = pool.take();
    /// caller.put(7, 70)?;
    /// drop(caller); // or at the end of the block
    /// assert_eq!(pool.take().get(7), Some(70.into()));
    /// # Ok::<(), Error>(())
    /// ```
    #[doc(alias("acquire", "checkout", "lock"))]
    pub fn take(&self) -> PooledCaller<'_> {
        let wait = |idle| self.given_back.wait_while(idle, |idle: &mut Idle| idle.is_none());
        let idle = wait(self.idle()).unwrap_or_else(PoisonError::into_inner);
        match self.lend(idle) {
            Some(caller) => caller,
            None => unreachable!("it has waited for one"),
        }
    }

    /// Takes a caller if one is not taken, and else waits for none.
    ///
    /// ```
    /// # use cupolanettle::{Error, Options};
    /// let store = Options::new().keys(1_000).open()?;
    /// let pool = store.pool(1)?;
    /// let caller = pool.take();
    /// assert!(pool.try_take().is_none());
    /// drop(caller);
    /// assert!(pool.try_take().is_some());
    /// # Ok::<(), Error>(())
    /// ```
    #[doc(alias("try_acquire", "try_lock"))]
    pub fn try_take(&self) -> Option<PooledCaller<'_>> {
        self.lend(self.idle())
    }

    /// Takes a caller if one is not taken within this time.
    ///
    /// ```
    /// # use cupolanettle::{Error, Options};
    /// # use std::time::Duration;
    /// let store = Options::new().keys(1_000).open()?;
    /// let pool = store.pool(1)?;
    /// let caller = pool.take();
    /// match pool.take_timeout(Duration::from_millis(1)) {
    ///     Some(other) => other.put(7, 70)?,
    ///     None => caller.put(7, 71)?,
    /// };
    /// # Ok::<(), Error>(())
    /// ```
    #[doc(alias("get_timeout", "acquire_timeout"))]
    pub fn take_timeout(&self, most: Duration) -> Option<PooledCaller<'_>> {
        let is_none = |idle: &mut Idle| idle.is_none();
        let waited = self.given_back.wait_timeout_while(self.idle(), most, is_none);
        let (idle, _) = waited.unwrap_or_else(PoisonError::into_inner);
        self.lend(idle)
    }

    /// How many callers it has, taken or not.
    ///
    /// ```
    /// # use cupolanettle::{Error, Options};
    /// let store = Options::new().keys(1_000).open()?;
    /// assert_eq!(store.pool(8)?.callers(), 8);
    /// # Ok::<(), Error>(())
    /// ```
    #[must_use]
    #[doc(alias("size", "len"))]
    pub fn callers(&self) -> usize {
        self.callers
    }

    /// How many of its callers are not taken, just now.
    ///
    /// ```
    /// # use cupolanettle::{Error, Options};
    /// let store = Options::new().keys(1_000).open()?;
    /// let pool = store.pool(8)?;
    /// let taken = [pool.take(), pool.take()];
    /// assert_eq!(pool.idle_callers(), 6);
    /// # Ok::<(), Error>(())
    /// ```
    #[must_use]
    pub fn idle_callers(&self) -> usize {
        self.idle().callers.len()
    }

    /// A panic elsewhere leaves it whole: no code of others runs while it is locked.
    fn idle(&self) -> MutexGuard<'_, Idle> {
        self.idle.lock().unwrap_or_else(PoisonError::into_inner)
    }

    /// Lends a caller that is not taken, if there is one.
    fn lend(&self, mut idle: MutexGuard<'_, Idle>) -> Option<PooledCaller<'_>> {
        let caller = idle.callers.pop()?;
        let seen = idle.seen;
        drop(idle);
        let lent = PooledCaller { pool: self, caller: Some(caller) };
        lent.follow(seen).expect("a caller of this store has seen it");
        Some(lent)
    }

    fn give_back(&self, caller: Caller) {
        let mut idle = self.idle();
        idle.seen = idle.seen.max(caller.seen());
        idle.callers.push(caller);
        drop(idle);
        self.given_back.notify_one();
    }
}

impl Idle {
    fn is_none(&self) -> bool {
        self.callers.is_empty()
    }
}

impl fmt::Debug for Pool {
    fn fmt(&self, f: &mut fmt::Formatter<'_>) -> fmt::Result {
        f.debug_struct("Pool")
            .field("callers", &self.callers())
            .field("idle_callers", &self.idle_callers())
            .finish_non_exhaustive()
    }
}

/// A [`Caller`] of a [`Pool`], to which its drop gives it back.
///
/// ```
/// use cupolanettle::{Caller, Error, Options, PooledCaller};
///
/// fn work(caller: &Caller) -> Result<(), Error> {
///     caller.add(7, 1)?;
///     Ok(())
/// }
///
/// let store = Options::new().keys(1_000).open()?;
/// let pool = store.pool(2)?;
/// let caller: PooledCaller<'_> = pool.take();
/// work(&caller)?;
/// work(&caller)?;
/// assert_eq!(caller.get(7), Some(2.into()));
/// # Ok::<(), Error>(())
/// ```
#[must_use = "a drop gives the caller back"]
pub struct PooledCaller<'a> {
    pool: &'a Pool,
    /// There is one until the drop.
    caller: Option<Caller>,
}

impl Deref for PooledCaller<'_> {
    type Target = Caller;

    #[inline]
    fn deref(&self) -> &Caller {
        match &self.caller {
            Some(caller) => caller,
            None => unreachable!("it was not given back"),
        }
    }
}

impl Drop for PooledCaller<'_> {
    fn drop(&mut self) {
        if let Some(caller) = self.caller.take() {
            self.pool.give_back(caller);
        }
    }
}

impl fmt::Debug for PooledCaller<'_> {
    fn fmt(&self, f: &mut fmt::Formatter<'_>) -> fmt::Result {
        f.debug_tuple("PooledCaller").field(&**self).finish()
    }
}
