//! Stores: opening them, and what their handles share.
use crate::caller::Caller;
use crate::error::{NoSeat, OpenError, Refused};
use crate::library::OpenStore;
use crate::snapshot::Snapshot;
use crate::statistics::Statistics;
use cupolanettle_sys as raw;
use std::ffi::c_int;
use std::fmt;
use std::sync::Arc;
use std::thread;
use std::time::Duration;

/// The most milliseconds that a write may wait: so many nanoseconds fit into 64 bits.
const MOST_WAIT: u128 = u64::MAX as u128 / NANOSECONDS;

/// The nanoseconds of a millisecond.
const NANOSECONDS: u128 = 1_000_000;

/// How to open a store. What each size costs, and how to choose, is in `docs/C.md`, "Options and
/// sizes".
///
/// ```
/// use cupolanettle::{OpenError, Options};
/// use std::time::Duration;
///
/// let store = Options::new().keys(1_000_000).wait(Duration::from_secs(10)).open()?; // 263 MiB
/// # drop(store);
/// # Ok::<(), OpenError>(())
/// ```
#[derive(Clone, Copy, PartialEq, Eq, Debug)]
#[must_use = "`open` opens a store"]
#[doc(alias("Builder", "Config"))]
pub struct Options {
    keys: usize,
    versions: Option<usize>,
    epoch: Option<usize>,
    patience: usize,
    wait: Duration,
    merges_in_calls: bool,
}

impl Options {
    /// Room for 100,000 keys and as many old versions, epochs of 6,250 writes, a patience of 64
    /// looks, a wait of a second, and a thread that merges: 37 MiB. With other keys, versions and
    /// epochs go by them.
    ///
    /// ```
    /// # use cupolanettle::Options;
    /// # use std::time::Duration;
    /// let written_out = Options::new().keys(100_000).patience(64).wait(Duration::from_secs(1));
    /// assert_eq!(Options::new(), written_out);
    /// ```
    pub const fn new() -> Options {
        Options {
            keys: 100_000,
            versions: None,
            epoch: None,
            patience: 64,
            wait: Duration::from_secs(1),
            merges_in_calls: false,
        }
    }

    /// The most keys that have a value at once, from 1 to 4,194,304 less the
    /// [versions](Options::versions), which are at least six times the epoch and 64. The store
    /// takes the memory for all of them when it opens.
    ///
    /// So many keys always find room. The store finds out that there are more when it merges, and
    /// may have six epochs and 64 keys more by then. From then on it refuses writes that would
    /// give one more key a value, with [`RunFull`](crate::Refused::RunFull), until keys were
    /// removed.
    ///
    /// ```
    /// # use cupolanettle::{OpenError, Options};
    /// let store = Options::new().keys(1_000).open()?; // 7 MiB
    /// assert_eq!(Options::new().keys(0).open().err(), Some(OpenError::Keys));
    /// # Ok::<(), OpenError>(())
    /// ```
    pub const fn keys(mut self, keys: usize) -> Options {
        self.keys = keys;
        self
    }

    /// Room for old versions that open snapshots and iterators keep, beside the keys: from six
    /// times the epoch and 64 to 4,194,304 less the keys. If it is not set, as many as keys, but no
    /// more than 100,000, or the least number if that is more.
    ///
    /// Each write since the oldest open snapshot was opened takes one of them. Once there is no
    /// room for more, writes [wait](Options::wait) for that snapshot to be dropped.
    ///
    /// ```
    /// # use cupolanettle::{OpenError, Options};
    /// let store = Options::new().keys(1_000).versions(1_000_000).open()?; // 171 MiB
    ///
    /// let least = Options::new().keys(1_000).epoch(64).versions(6 * 64 + 64);
    /// least.open()?;
    /// let less = least.versions(6 * 64 + 63);
    /// assert_eq!(less.open().err(), Some(OpenError::Versions));
    /// # Ok::<(), OpenError>(())
    /// ```
    pub const fn versions(mut self, versions: usize) -> Options {
        self.versions = Some(versions);
        self
    }

    /// The most writes between two merges, 4 to 65,536. If it is not set, a sixteenth of the keys,
    /// but at least 4,096 and at most 65,536, or as many as leave room for the least versions.
    ///
    /// Longer epochs make fewer merges, each of which copies more. Batches are at most as long as
    /// an epoch, and are best far shorter.
    ///
    /// ```
    /// # use cupolanettle::{OpenError, Options};
    /// let store = Options::new().epoch(65_536).open()?;
    /// assert_eq!(Options::new().epoch(3).open().err(), Some(OpenError::Epoch));
    /// # Ok::<(), OpenError>(())
    /// ```
    pub const fn epoch(mut self, epoch: usize) -> Options {
        self.epoch = Some(epoch);
        self
    }

    /// How often a read looks again at a write that is not finished before it cancels that, up to
    /// 64. The cancelled write is made again.
    ///
    /// ```
    /// # use cupolanettle::{OpenError, Options};
    /// let reads_never_look_again = Options::new().patience(0).open()?;
    /// assert_eq!(Options::new().patience(65).open().err(), Some(OpenError::Patience));
    /// # Ok::<(), OpenError>(())
    /// ```
    pub const fn patience(mut self, patience: usize) -> Options {
        self.patience = patience;
        self
    }

    /// For how long a write waits for a snapshot or an iterator to be dropped that keeps it from
    /// finding room, from zero to 18,446,744,073,709 milliseconds, in whole milliseconds, rounded
    /// up. Zero: it is refused at once. If it is not set, a second.
    ///
    /// The write is refused with [`VersionsFull`](crate::Refused::VersionsFull) then. If one of
    /// the snapshots is its own caller's, it does not wait at all, and is refused with
    /// [`OwnSnapshot`](crate::Refused::OwnSnapshot).
    ///
    /// ```
    /// # use cupolanettle::{Error, OpenError, Options, Refused};
    /// # use std::time::Duration;
    /// let store = Options::new().keys(1_000).epoch(64).wait(Duration::ZERO).open()?;
    /// let caller = store.caller()?;
    /// let snapshot = store.snapshot()?;
    /// let refused = (0..).find_map(|word| caller.put(7, word).err());
    /// assert_eq!(refused, Some(Refused::VersionsFull));
    ///
    /// let too_long = Options::new().wait(Duration::MAX);
    /// assert_eq!(too_long.open().err(), Some(OpenError::Wait));
    /// # Ok::<(), Error>(())
    /// ```
    pub const fn wait(mut self, wait: Duration) -> Options {
        self.wait = wait;
        self
    }

    /// Lets writes merge, and starts no thread: a write that finds its epoch full merges it first,
    /// and other writes that do so wait for that.
    ///
    /// ```
    /// # use cupolanettle::{Error, Options};
    /// let store = Options::new().epoch(64).merge_in_calls().open()?;
    /// let caller = store.caller()?;
    /// for key in 0..1_000 {
    ///     caller.put(key, key)?;
    /// }
    /// assert_eq!(caller.count(..), 1_000);
    /// # Ok::<(), Error>(())
    /// ```
    pub const fn merge_in_calls(mut self) -> Options {
        self.merges_in_calls = true;
        self
    }

    /// Opens an empty store, with all the memory that it will ever need, and starts its merger. It
    /// takes as much again while it opens the store.
    ///
    /// # Errors
    ///
    /// [`OpenError`], with nothing left open.
    ///
    /// ```
    /// # use cupolanettle::{OpenError, Options};
    /// let options = Options::new().keys(1_000);
    /// let (one, other) = (options.open()?, options.open()?);
    /// # Ok::<(), OpenError>(())
    /// ```
    pub fn open(&self) -> Result<Store, OpenError> {
        let opened = OpenStore::open(&self.raw()?).map_err(OpenError::of)?;
        Ok(Store { opened: Arc::new(opened), keys: self.keys })
    }

    /// The options for the library, where 0 has a meaning of its own.
    fn raw(&self) -> Result<raw::Options, OpenError> {
        if self.keys == 0 {
            return Err(OpenError::Keys);
        }
        if self.versions == Some(0) {
            return Err(OpenError::Versions);
        }
        if self.epoch == Some(0) {
            return Err(OpenError::Epoch);
        }
        let patience = match self.patience {
            0 => -1,
            looks => c_int::try_from(looks).map_err(|_| OpenError::Patience)?,
        };
        Ok(raw::Options {
            keys: self.keys,
            versions: self.versions.unwrap_or(0),
            epoch: self.epoch.unwrap_or(0),
            patience,
            wait: self.milliseconds_of_wait()?,
            merge: if self.merges_in_calls { raw::MERGE_IN_CALLS } else { 0 },
            ..raw::Options::default()
        })
    }

    fn milliseconds_of_wait(&self) -> Result<i64, OpenError> {
        let milliseconds = self.wait.as_nanos().div_ceil(NANOSECONDS);
        if milliseconds == 0 {
            return Ok(-1);
        }
        if milliseconds > MOST_WAIT {
            return Err(OpenError::Wait);
        }
        i64::try_from(milliseconds).map_err(|_| OpenError::Wait)
    }
}

impl Default for Options {
    fn default() -> Options {
        Options::new()
    }
}

/// An ordered map from `u64` to [`Value`](crate::Value), for many threads.
///
/// A `Store` is a handle: clones are of the same map, and any thread may use them. Calls on the
/// map are made through [callers](Caller) and [snapshots](Snapshot), at most 64 at once. The store
/// is closed when the last of all these is dropped. That ends the merger's thread, after the merge
/// that it may be at.
///
/// ```
/// use cupolanettle::{Error, Options};
///
/// let store = Options::new().keys(1_000).open()?;
/// let other = store.clone();
/// std::thread::spawn(move || other.caller()?.put(1, 10).map_err(Error::from)).join().unwrap()?;
/// assert_eq!(store.snapshot()?.get(1), Some(10.into()));
/// # Ok::<(), Error>(())
/// ```
#[derive(Clone)]
#[doc(alias("Database", "DB", "Map", "SkipMap"))]
pub struct Store {
    opened: Arc<OpenStore>,
    /// So many it was opened for.
    keys: usize,
}

impl Store {
    /// Opens a caller, whose reads see all that callers did and saw that were dropped before. It
    /// costs a read, and takes a lock.
    ///
    /// # Errors
    ///
    /// [`NoSeat`] where 64 callers, snapshots and iterators are open.
    ///
    /// ```
    /// # use cupolanettle::{Error, Options};
    /// let store = Options::new().keys(1_000).open()?;
    /// let caller = store.caller()?;
    /// caller.put(1, 10)?;
    /// # Ok::<(), Error>(())
    /// ```
    pub fn caller(&self) -> Result<Caller, NoSeat> {
        Ok(Caller::of(self.opened.caller()?))
    }

    /// Opens a snapshot of the present, which sees all that callers did and saw that were dropped
    /// before. It costs a read, and takes a lock.
    ///
    /// It is of no caller: a write that it keeps from finding room [waits](Options::wait), even if
    /// its own thread has the snapshot. A thread that writes takes [`Caller::snapshot`] instead.
    ///
    /// # Errors
    ///
    /// [`NoSeat`] where 64 callers, snapshots and iterators are open.
    ///
    /// ```
    /// # use cupolanettle::{Error, Options};
    /// let store = Options::new().keys(1_000).open()?;
    /// assert_eq!(store.snapshot()?.count(..), 0);
    /// # Ok::<(), Error>(())
    /// ```
    pub fn snapshot(&self) -> Result<Snapshot, NoSeat> {
        Ok(Snapshot::of(self.opened.snapshot()?))
    }

    /// Merges now all that was written before the call, and gives up old versions that no snapshot
    /// needs. The store does so by itself, but not at once: call this before many reads, once a
    /// snapshot is dropped that kept many versions, or after [`TryError::Full`] where
    /// [calls merge](Options::merge_in_calls).
    ///
    /// It waits for a merge that is running, for writes that are, and for reads that hold what
    /// merges replaced. At worst it copies all that is in the store.
    ///
    /// # Errors
    ///
    /// [`Refused::VersionsFull`] and [`Refused::Worn`]; what was merged so far stays merged.
    ///
    /// ```
    /// # use cupolanettle::{Error, Options, TryError};
    /// let store = Options::new().keys(1_000).epoch(64).merge_in_calls().open()?;
    /// let caller = store.caller()?;
    /// for key in 0..64 {
    ///     caller.try_put(key, 0)?;
    /// }
    /// assert_eq!(caller.try_put(64, 0), Err(TryError::Full));
    /// store.sweep()?;
    /// caller.try_put(64, 0)?;
    /// # Ok::<(), Error>(())
    /// ```
    ///
    /// [`TryError::Full`]: crate::TryError::Full
    #[doc(alias("compact", "compact_range"))]
    pub fn sweep(&self) -> Result<(), Refused> {
        loop {
            match self.opened.sweep() {
                raw::OK | raw::IDLE => return Ok(()),
                raw::PINNED => thread::yield_now(),
                code => return Err(Refused::of(code)),
            }
        }
    }

    /// What the store tells of itself: memory, open handles, times, room, merges, waits and
    /// refusals. Costs a read, and takes no lock that a write waits for.
    ///
    /// ```
    /// # use cupolanettle::{Error, Options};
    /// let store = Options::new().keys(1_000).open()?;
    /// let caller = store.caller()?;
    /// caller.put(1, 10)?;
    /// let now = store.stats();
    /// assert_eq!((now.callers, now.clock, now.epoch_writes), (1, caller.seen(), 1));
    /// assert_eq!(now.run_full + now.versions_full, 0);
    /// # Ok::<(), Error>(())
    /// ```
    #[must_use]
    #[doc(alias("statistics", "metrics"))]
    pub fn stats(&self) -> Statistics {
        Statistics::of(&self.opened.stats())
    }
}

/// Reads the [statistics](Store::stats), and shows the main ones.
impl fmt::Debug for Store {
    fn fmt(&self, f: &mut fmt::Formatter<'_>) -> fmt::Result {
        let statistics = self.stats();
        f.debug_struct("Store")
            .field("keys", &self.keys)
            .field("room_for_keys", &statistics.room_for_keys)
            .field("clock", &statistics.clock)
            .field("epoch_writes", &statistics.epoch_writes)
            .field("callers", &statistics.callers)
            .field("snapshots", &statistics.snapshots)
            .finish_non_exhaustive()
    }
}
