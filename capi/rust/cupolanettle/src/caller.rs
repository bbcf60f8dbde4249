//! Callers.
mod batches;
mod changes;
mod many;
mod rows;
mod transactions;
mod walks;

use crate::error::{Memory, NoSeat, Refused, TryError, Unseen};
use crate::library::{unexpected, Code, Handle};
use crate::range::{first_row, is_empty, read_page, Keys, Page, Range};
use crate::snapshot::Snapshot;
use crate::value::Value;
use crate::Time;
use cupolanettle_sys as raw;
use std::fmt;
use std::ops::RangeBounds;

/// Makes calls on a store, from one thread at a time.
///
/// A read gives the map as it was at one moment. It blocks for no write and no merge: at a write
/// that has begun and not ended it looks again, as often as the
/// [patience](crate::Options::patience) says, and then cancels that write, which is made again.
/// Writes wait while another thread merges what they need. They are [refused](Refused) if too many
/// keys have a value, or if a snapshot stays open for too long.
///
/// ```
/// use cupolanettle::{Error, Options, Value};
///
/// let store = Options::new().keys(1_000).open()?;
/// let caller = store.caller()?;
/// caller.put(7, [70, 71])?;
/// assert_eq!(caller.get(7), Some(Value::from([70, 71])));
/// caller.remove(7)?;
/// assert_eq!(caller.get(7), None);
/// # Ok::<(), Error>(())
/// ```
///
/// The reads of a caller see all that it wrote, and of others [what came
/// before](crate#what-a-read-sees).
///
/// A caller may be moved to another thread, but not shared. So each thread opens its own, and
/// where one shares another's, the compiler says that `OneCallerForEachThread` cannot be shared:
///
/// ```compile_fail,E0277
/// # use cupolanettle::{Error, Options};
/// # let store = Options::new().keys(1_000).open()?;
/// let caller = store.caller()?;
/// std::thread::scope(|scope| {
///     scope.spawn(|| caller.get(7));
/// });
/// # Ok::<(), Error>(())
/// ```
pub struct Caller {
    handle: Handle<raw::Caller>,
}

impl Caller {
    pub(crate) fn of(handle: Handle<raw::Caller>) -> Caller {
        Caller { handle }
    }

    // ---- times

    /// The number of its seat, from 0 to 63, which no other caller or snapshot has that is open.
    ///
    /// ```
    /// # use cupolanettle::{Error, Options};
    /// let store = Options::new().keys(1_000).open()?;
    /// let (one, other) = (store.caller()?, store.caller()?);
    /// assert_ne!(one.number(), other.number());
    /// # Ok::<(), Error>(())
    /// ```
    #[must_use]
    pub fn number(&self) -> usize {
        self.handle.number()
    }

    /// The time of the last call that was answered, or [zero](Time::ZERO) before any: of a write its
    /// own, of a read or a snapshot the time at which that reads.
    ///
    /// ```
    /// # use cupolanettle::{Error, Options};
    /// let store = Options::new().keys(1_000).open()?;
    /// let caller = store.caller()?;
    /// let written = caller.put(7, 70)?;
    /// assert_eq!(caller.time(), written);
    /// caller.get(7);
    /// assert!(caller.time() > written);
    /// # Ok::<(), Error>(())
    /// ```
    #[must_use]
    pub fn time(&self) -> Time {
        self.handle.time()
    }

    /// The time from which on reads see all that this caller wrote and read. Send it along with a
    /// message, for its receiver to [follow](Caller::follow).
    ///
    /// ```
    /// # use cupolanettle::{Error, Options, Time};
    /// let store = Options::new().keys(1_000).open()?;
    /// let caller = store.caller()?;
    /// assert_eq!(caller.seen(), Time::ZERO);
    /// let written = caller.put(7, 70)?;
    /// assert!(caller.seen() > written);
    /// # Ok::<(), Error>(())
    /// ```
    #[must_use]
    #[doc(alias("token", "sequence_number", "version"))]
    pub fn seen(&self) -> Time {
        self.handle.seen()
    }

    /// From now on this caller's reads, snapshots and iterators are at this time or later, which
    /// another caller of the store had [seen](Caller::seen): they see what that had seen. Costs a
    /// read, or nothing if they do so already.
    ///
    /// A time tells nothing of the store that it is of. One of another store is
    /// refused if this store has not reached it, and else taken for one of this store: reads are
    /// right, but nobody is followed.
    ///
    /// # Errors
    ///
    /// [`Unseen`] if the store has not reached that time, so that no caller of it has seen it.
    ///
    /// ```
    /// # use cupolanettle::{Error, Options, Time, Unseen};
    /// let store = Options::new().keys(1_000).open()?;
    /// let (one, other) = (store.caller()?, store.caller()?);
    /// one.put(7, 70)?;
    /// let message = (7, one.seen());
    ///
    /// let (key, seen) = message;
    /// other.follow(seen)?;
    /// assert_eq!(other.get(key), Some(70.into()));
    ///
    /// assert_eq!(other.follow(Time::from(1_000)), Err(Unseen));
    /// # Ok::<(), Error>(())
    /// ```
    pub fn follow(&self, seen: Time) -> Result<(), Unseen> {
        match self.handle.follow(seen) {
            raw::OK => Ok(()),
            raw::BAD_VALUE => Err(Unseen),
            code => unexpected(code),
        }
    }

    // ---- writes

    /// Writes the value at the key, and answers the write's time.
    ///
    /// Where another thread is faster it tries again. Where the epoch is full it sleeps until the
    /// merger has begun the next one; if open snapshots keep that from making room, until one of
    /// them is dropped, for as long as [`Options::wait`](crate::Options::wait) says. While a long
    /// merge runs, it sleeps now and then, for a millisecond at most.
    ///
    /// # Errors
    ///
    /// [`Refused`], with nothing written; [`Refused::RunFull`] only if the key has no value.
    ///
    /// ```
    /// # use cupolanettle::{Error, Options, Value};
    /// let store = Options::new().keys(1_000).open()?;
    /// let caller = store.caller()?;
    /// caller.put(1, 10)?;
    /// caller.put(2, [20, 21])?;
    /// let words = vec![30, 31, 32];
    /// caller.put(3, Value::try_from(&words[..])?)?;
    /// # Ok::<(), Error>(())
    /// ```
    #[inline]
    #[doc(alias("insert", "upsert", "set", "store", "write"))]
    pub fn put(&self, key: u64, value: impl Into<Value>) -> Result<Time, Refused> {
        self.written(self.handle.put(key, &value.into()))
    }

    /// Removes the key, whether or not it has a value, and answers the removal's time. It takes
    /// room and waits as [`put`](Caller::put).
    ///
    /// # Errors
    ///
    /// [`Refused`], with nothing removed; never [`Refused::RunFull`].
    ///
    /// ```
    /// # use cupolanettle::{Error, Options};
    /// let store = Options::new().keys(1_000).open()?;
    /// let caller = store.caller()?;
    /// caller.put(1, 10)?;
    /// caller.remove(1)?;
    /// caller.remove(1)?;
    /// assert_eq!(caller.get(1), None);
    /// # Ok::<(), Error>(())
    /// ```
    #[doc(alias("delete", "erase", "del"))]
    pub fn remove(&self, key: u64) -> Result<Time, Refused> {
        self.written(self.handle.remove(key))
    }

    /// As [`put`](Caller::put), but it tries once and never waits.
    ///
    /// # Errors
    ///
    /// [`TryError`], with nothing written; [`TryError::Refused`] where `put` would be refused, or
    /// would wait for a snapshot to be dropped.
    ///
    /// ```
    /// # use cupolanettle::{Error, Options, TryError};
    /// let store = Options::new().keys(1_000).open()?;
    /// let caller = store.caller()?;
    /// match caller.try_put(1, 10) {
    ///     Ok(time) => println!("written at {time}"),
    ///     Err(TryError::Refused(refused)) => return Err(refused.into()),
    ///     Err(TryError::Full) => println!("again, after the merge"),
    ///     Err(lost) => println!("again, at once: {lost}"),
    /// }
    /// # Ok::<(), Error>(())
    /// ```
    #[inline]
    pub fn try_put(&self, key: u64, value: impl Into<Value>) -> Result<Time, TryError> {
        self.tried(self.handle.try_put(key, &value.into()))
    }

    /// As [`remove`](Caller::remove), but it tries once and never waits.
    ///
    /// # Errors
    ///
    /// [`TryError`], with nothing removed. A loop of tries ends with [`TryError::Refused`].
    ///
    /// ```
    /// # use cupolanettle::{Error, Options, TryError};
    /// let store = Options::new().keys(1_000).open()?;
    /// let caller = store.caller()?;
    /// caller.put(1, 10)?;
    /// loop {
    ///     match caller.try_remove(1) {
    ///         Ok(_) => break,
    ///         Err(TryError::Refused(refused)) => return Err(refused.into()),
    ///         Err(_) => std::thread::yield_now(),
    ///     }
    /// }
    /// assert_eq!(caller.get(1), None);
    /// # Ok::<(), Error>(())
    /// ```
    pub fn try_remove(&self, key: u64) -> Result<Time, TryError> {
        self.tried(self.handle.try_remove(key))
    }

    /// What a write came to.
    #[inline]
    fn written(&self, code: Code) -> Result<Time, Refused> {
        match code {
            raw::OK => Ok(self.time()),
            code => Err(Refused::of(code)),
        }
    }

    /// What a write came to that was tried once.
    #[inline]
    fn tried(&self, code: Code) -> Result<Time, TryError> {
        match code {
            raw::OK => Ok(self.time()),
            code => Err(TryError::of(code)),
        }
    }

    // ---- reads

    /// The value of the key, if it has one.
    ///
    /// ```
    /// # use cupolanettle::{Error, Options};
    /// let store = Options::new().keys(1_000).open()?;
    /// let caller = store.caller()?;
    /// caller.put(7, [70, 71])?;
    /// assert_eq!(caller.get(7).unwrap()[1], 71);
    /// assert!(caller.get(8).is_none());
    /// # Ok::<(), Error>(())
    /// ```
    #[inline]
    #[allow(clippy::must_use_candidate)] // a read moves the caller's time, too
    #[doc(alias("find", "lookup"))]
    pub fn get(&self, key: u64) -> Option<Value> {
        self.handle.get(key)
    }

    /// Whether the key has a value. It costs a [`get`](Caller::get), less the copy of the value.
    ///
    /// Where the answer decides on a write, another thread may write the key in between: take a
    /// change instead, such as [`put_if_absent`](Caller::put_if_absent).
    ///
    /// ```
    /// # use cupolanettle::{Error, Options};
    /// let store = Options::new().keys(1_000).open()?;
    /// let caller = store.caller()?;
    /// caller.put(7, 70)?;
    /// assert!(caller.contains_key(7) && !caller.contains_key(8));
    /// # Ok::<(), Error>(())
    /// ```
    #[inline]
    #[must_use]
    #[doc(alias("contains", "has", "exists"))]
    pub fn contains_key(&self, key: u64) -> bool {
        self.handle.contains_key(key)
    }

    /// Whether no key has a value. It reads up to the first row.
    ///
    /// ```
    /// # use cupolanettle::{Error, Options};
    /// let store = Options::new().keys(1_000).open()?;
    /// let caller = store.caller()?;
    /// assert!(caller.is_empty());
    /// caller.put(7, 70)?;
    /// assert!(!caller.is_empty());
    /// # Ok::<(), Error>(())
    /// ```
    #[must_use]
    pub fn is_empty(&self) -> bool {
        is_empty(&self.handle)
    }

    /// The row of the least key, or `None` if no key has a value. It is a
    /// [`page`](Caller::page) of one row.
    ///
    /// The first row of a range is `caller.page(first..last, 1)`.
    ///
    /// # Errors
    ///
    /// [`Memory`].
    ///
    /// ```
    /// # use cupolanettle::{Error, Options};
    /// let store = Options::new().keys(1_000).open()?;
    /// let caller = store.caller()?;
    /// assert_eq!(caller.first_key_value()?, None);
    /// for key in [8, 3, 5] {
    ///     caller.put(key, 10 * key)?;
    /// }
    /// assert_eq!(caller.first_key_value()?, Some((3, 30.into())));
    /// # Ok::<(), Error>(())
    /// ```
    #[doc(alias("first", "front", "min", "seek_to_first"))]
    pub fn first_key_value(&self) -> Result<Option<(u64, Value)>, Memory> {
        first_row(&self.handle)
    }

    /// How many keys of the range have a value. It walks all of them and needs no memory.
    ///
    /// ```
    /// # use cupolanettle::{Error, Options};
    /// let store = Options::new().keys(1_000).open()?;
    /// let caller = store.caller()?;
    /// caller.put(1, 10)?;
    /// caller.put(2, 20)?;
    /// assert_eq!(caller.count(..), 2);
    /// assert_eq!(caller.count(2..=9), 1);
    /// # Ok::<(), Error>(())
    /// ```
    #[must_use]
    #[doc(alias("len", "size"))]
    pub fn count(&self, keys: impl RangeBounds<u64>) -> u64 {
        self.handle.count(Keys::of(&keys))
    }

    /// The first rows of the range by rising key, at most so many, as they are at one moment,
    /// without a snapshot.
    ///
    /// The next page is read at a moment of its own: for all rows at one moment, take a
    /// [`range`](Caller::range) or a [`snapshot`](Caller::snapshot).
    ///
    /// It takes time and memory for the rows that there are: more than 1,024 are read several
    /// times, each time with four times the room.
    ///
    /// # Errors
    ///
    /// [`Memory`].
    ///
    /// ```
    /// # use cupolanettle::{Error, Options};
    /// let store = Options::new().keys(1_000).open()?;
    /// let caller = store.caller()?;
    /// for key in 0..5 {
    ///     caller.put(key, 10 * key)?;
    /// }
    /// let page = caller.page(1.., 2)?;
    /// assert_eq!(page.rows, [(1, 10.into()), (2, 20.into())]);
    /// assert_eq!(page.next, Some(3));
    /// # Ok::<(), Error>(())
    /// ```
    #[doc(alias("scan", "limit"))]
    pub fn page(&self, keys: impl RangeBounds<u64>, most: usize) -> Result<Page, Memory> {
        let keys = Keys::of(&keys);
        read_page(most, |room, rows| self.handle.page(keys, room, rows))
    }

    // ---- snapshots

    /// Opens a snapshot of the present, which sees all that this caller wrote and read. It is a
    /// handle of its own, and may outlive the caller. It costs a read, and a lock only if the
    /// caller has no seat to spare, of which it keeps one once it has used it.
    ///
    /// While it is open, writes of this caller do not wait for snapshots to be dropped: they are
    /// [refused](Refused::OwnSnapshot) at once. For a snapshot that another thread reads
    /// meanwhile, take [`Store::snapshot`](crate::Store::snapshot).
    ///
    /// # Errors
    ///
    /// [`NoSeat`] where 64 callers, snapshots and iterators are open.
    ///
    /// ```
    /// # use cupolanettle::{Error, Options};
    /// let store = Options::new().keys(1_000).open()?;
    /// let caller = store.caller()?;
    /// caller.put(1, 10)?;
    /// let snapshot = caller.snapshot()?;
    /// caller.put(1, 11)?;
    /// assert_eq!(snapshot.get(1), Some(10.into()));
    /// assert_eq!(caller.get(1), Some(11.into()));
    /// # Ok::<(), Error>(())
    /// ```
    #[doc(alias("read_transaction", "read_txn", "begin"))]
    pub fn snapshot(&self) -> Result<Snapshot, NoSeat> {
        Ok(Snapshot::of(self.handle.snapshot()?))
    }

    /// An iterator over the rows of the range by rising key, as they are at one moment: over a
    /// snapshot.
    ///
    /// It has that [`snapshot`](Caller::snapshot) to itself, and reads 64 rows at first, then up to
    /// 512 at a time. A long loop that writes as it reads takes a [`walk`](Caller::walk): here its
    /// writes may be [refused](Refused::OwnSnapshot), as the snapshot keeps old versions.
    ///
    /// # Errors
    ///
    /// [`NoSeat`] where 64 callers, snapshots and iterators are open. An item is [`Memory`] where
    /// memory ran out.
    ///
    /// ```
    /// # use cupolanettle::{Error, Options};
    /// let store = Options::new().keys(1_000).open()?;
    /// let caller = store.caller()?;
    /// for key in 0..5 {
    ///     caller.put(key, 10 * key)?;
    /// }
    /// let mut sum = 0;
    /// for row in caller.range(1..4)? {
    ///     let (_, value) = row?;
    ///     sum += value[0];
    /// }
    /// assert_eq!(sum, 60);
    /// # Ok::<(), Error>(())
    /// ```
    #[doc(alias("iter", "iterator", "cursor", "scan"))]
    pub fn range(&self, keys: impl RangeBounds<u64>) -> Result<Range<Snapshot>, NoSeat> {
        Ok(Range::new(self.snapshot()?, Keys::of(&keys)))
    }
}

impl fmt::Debug for Caller {
    fn fmt(&self, f: &mut fmt::Formatter<'_>) -> fmt::Result {
        f.debug_struct("Caller")
            .field("number", &self.number())
            .field("time", &self.time())
            .field("seen", &self.seen())
            .finish_non_exhaustive()
    }
}
