//! Why calls are refused.
mod conversions;
mod texts;

use crate::change::Kept;
use crate::conditions::Unmet;
use crate::library::{unexpected, Code};
use cupolanettle_sys as raw;

/// Why a store was not opened. Nothing of it is kept.
///
/// ```
/// use cupolanettle::{OpenError, Options};
///
/// assert_eq!(Options::new().patience(65).open().err(), Some(OpenError::Patience));
/// ```
#[non_exhaustive]
#[derive(Clone, Copy, PartialEq, Eq, Hash, Debug)]
pub enum OpenError {
    /// [`keys`](crate::Options::keys) is out of its range.
    Keys,
    /// [`versions`](crate::Options::versions) is out of its range.
    Versions,
    /// [`epoch`](crate::Options::epoch) is out of its range.
    Epoch,
    /// [`patience`](crate::Options::patience) is out of its range.
    Patience,
    /// [`wait`](crate::Options::wait) is out of its range.
    Wait,
    /// Memory ran out.
    Memory,
    /// The system started no thread for the merger.
    NoThread,
    /// This crate and the library that it was linked with are not of one build.
    Build,
}

/// Why a write was refused. Nothing was written, and all else goes on: reads are never refused,
/// and the same write is taken once there is room.
///
/// ```
/// use cupolanettle::{Error, Options, Refused};
///
/// let store = Options::new().keys(1).epoch(4).open()?;
/// let caller = store.caller()?;
/// let snapshot = caller.snapshot()?; // keeps all versions
/// let refused = (0..1_000).find_map(|number| caller.put(7, number).err());
/// assert_eq!(refused, Some(Refused::OwnSnapshot));
///
/// drop(snapshot);
/// caller.put(7, 70)?;
/// # Ok::<(), Error>(())
/// ```
///
/// A store with too many keys takes all writes but those that would give it one more:
///
/// ```
/// # use cupolanettle::{Error, Options, Refused};
/// let store = Options::new().keys(100).epoch(4).open()?;
/// let caller = store.caller()?;
/// let full = (0..).find(|&key| caller.put(key, 0).is_err()).unwrap();
/// assert_eq!(caller.put(full, 0), Err(Refused::RunFull));
///
/// caller.put(7, 70)?; // it has a value
/// caller.retain(100.., |_, _| false)?; // removes all but 100 keys
/// caller.put(full, 0)?;
/// # Ok::<(), Error>(())
/// ```
#[non_exhaustive]
#[derive(Clone, Copy, PartialEq, Eq, Hash, Debug)]
pub enum Refused {
    /// More keys have a value than the store was opened [for](crate::Options::keys), and this
    /// write would give one more key a value. Writes of keys that have a value, and removals, are
    /// taken still.
    ///
    /// Once so many keys were removed that no more have a value than that, the same write is
    /// taken. To find that out it counts all keys, where that may help.
    RunFull,
    /// The epoch is full, and the one before cannot be merged, since open snapshots and iterators
    /// keep more old versions than the store has [room](crate::Options::versions) for. The write
    /// has [waited](crate::Options::wait) for one of them to be dropped. While none is open, no
    /// write is refused so.
    ///
    /// Once enough of them are dropped, the oldest first, the same write is taken. Keep them for a
    /// shorter time, or open the store with more room or a longer wait.
    VersionsFull,
    /// As [`VersionsFull`](Refused::VersionsFull), but this caller has a
    /// [snapshot](crate::Caller::snapshot) or [iterator](crate::Caller::range) open itself. So the
    /// write did not wait: as a rule its own thread would have to drop that.
    ///
    /// Once it is dropped, the same write is taken, or waits for others. A loop that writes as it
    /// reads takes a [`walk`](crate::Caller::walk), which keeps no versions.
    OwnSnapshot,
    /// Times end at 2^62. No real program gets there.
    Worn,
}

/// Why a change was not made. Nothing was written.
///
/// ```
/// use cupolanettle::{ChangeError, Error, Options};
///
/// let store = Options::new().keys(1_000).open()?;
/// let caller = store.caller()?;
/// caller.put(7, [70, 71])?;
/// match caller.add(7, 1) {
///     Ok(changed) => println!("now {:?}", changed.after),
///     Err(ChangeError::Kept(kept)) => assert_eq!(kept.value.unwrap().len(), 2),
///     Err(refused) => return Err(refused.into()),
/// }
/// # Ok::<(), Error>(())
/// ```
#[non_exhaustive]
#[derive(Clone, Copy, PartialEq, Eq, Hash, Debug)]
pub enum ChangeError {
    /// The key kept its value, which the change did not fit.
    Kept(Kept),
    /// The write was refused.
    Refused(Refused),
}

/// Why a batch was not made. Nothing was written.
///
/// ```
/// use cupolanettle::{Batch, BatchError, Error, Options};
///
/// let store = Options::new().keys(1_000).epoch(4).open()?;
/// let caller = store.caller()?;
/// let mut batch = Batch::new();
/// assert_eq!(caller.batch(&batch), Err(BatchError::Empty));
///
/// for key in 0..5 {
///     batch.set(key, 0);
/// }
/// assert_eq!(caller.batch(&batch), Err(BatchError::TooLong));
/// # Ok::<(), Error>(())
/// ```
#[non_exhaustive]
#[derive(Clone, Copy, PartialEq, Eq, Hash, Debug)]
pub enum BatchError {
    /// It has no write.
    Empty,
    /// It has more writes than an [epoch](crate::Options::epoch).
    TooLong,
    /// Memory ran out. The same call may succeed if it is made again.
    Memory,
    /// The writes were refused.
    Refused(Refused),
}

/// Why a batch with conditions was not made. Nothing was written.
///
/// ```
/// use cupolanettle::{Batch, BatchIfError, Conditions, Error, Options};
///
/// let store = Options::new().keys(1_000).epoch(4).open()?;
/// let caller = store.caller()?;
/// let batch: Batch = (0..5).map(|key| (key, 0)).collect();
/// let refused = caller.batch_if(&Conditions::new(), &batch);
/// assert_eq!(refused, Err(BatchIfError::TooLong));
/// # Ok::<(), Error>(())
/// ```
#[non_exhaustive]
#[derive(Clone, Copy, PartialEq, Eq, Hash, Debug)]
pub enum BatchIfError {
    /// A condition does not hold.
    Unmet(Unmet),
    /// The batch has more writes than an [epoch](crate::Options::epoch).
    TooLong,
    /// Memory ran out. The same call may succeed if it is made again.
    Memory,
    /// The writes were refused.
    Refused(Refused),
}

/// Why a transaction was not made. Nothing was written.
///
/// ```
/// use cupolanettle::{Error, Options, TransactError};
///
/// let store = Options::new().keys(1_000).epoch(4).open()?;
/// let caller = store.caller()?;
/// let refused = caller.transact(|t| (0..5).try_for_each(|key| t.put(key, 0)));
/// assert_eq!(refused, Err(TransactError::TooLong));
/// # Ok::<(), Error>(())
/// ```
#[non_exhaustive]
#[derive(Clone, Copy, PartialEq, Eq, Hash, Debug)]
pub enum TransactError {
    /// Others changed what it read, each time that it ran.
    Conflict,
    /// It writes more keys than an [epoch](crate::Options::epoch) has writes.
    TooLong,
    /// All seats of the store are taken: its reads take one.
    NoSeat,
    /// Memory ran out. The same call may succeed if it is made again.
    Memory,
    /// Its writes were refused.
    Refused(Refused),
}

/// Why a write that never waits was not made. Nothing was written.
///
/// All but [`Refused`](TryError::Refused) may be made again at once. With that, a loop of tries
/// ends: it would go on for as long as the store is full.
///
/// ```
/// use cupolanettle::{Caller, Error, Options, Refused, TryError};
/// use std::thread;
///
/// fn put(caller: &Caller, key: u64, word: u64) -> Result<(), Refused> {
///     loop {
///         match caller.try_put(key, word) {
///             Ok(_) => return Ok(()),
///             Err(TryError::Refused(refused)) => return Err(refused),
///             Err(_) => thread::yield_now(), // or work of another kind
///         }
///     }
/// }
///
/// let store = Options::new().keys(4).epoch(4).open()?;
/// let caller = store.caller()?;
/// let refused = (0..).find_map(|key| put(&caller, key, 0).err());
/// assert_eq!(refused, Some(Refused::RunFull));
/// # Ok::<(), Error>(())
/// ```
#[non_exhaustive]
#[derive(Clone, Copy, PartialEq, Eq, Hash, Debug)]
pub enum TryError {
    /// The epoch has no room yet: a merge must begin first. The merger's thread was called. Where
    /// [calls merge](crate::Options::merge_in_calls), call [`Store::sweep`](crate::Store::sweep).
    Full,
    /// Another thread was entering or leaving a write, or freezing the epoch, or counting the
    /// keys.
    Busy,
    /// Another write was faster.
    Raced,
    /// A reader found this write unfinished for too long, and cancelled it.
    Overtaken,
    /// A write that waits would be refused, too, or would wait for a snapshot to be dropped: the
    /// last merge came to that. [`OwnSnapshot`](Refused::OwnSnapshot) is told as
    /// [`VersionsFull`](Refused::VersionsFull) here.
    Refused(Refused),
}

/// Why [`retain`](crate::Caller::retain), [`remove_range`](crate::Caller::remove_range) or
/// [`clear`](crate::Caller::clear) did not come to the end of its range. Rows that it removed
/// before are removed. Also why [`pop_first`](crate::Caller::pop_first) or
/// [`pop_last`](crate::Caller::pop_last) removed none.
///
/// ```
/// use cupolanettle::{Error, Options, RetainError};
///
/// let store = Options::new().keys(1_000).open()?;
/// let caller = store.caller()?;
/// caller.put(7, 70)?;
/// match caller.retain(.., |_, value| value[0] < 50) {
///     Ok(removed) => assert_eq!(removed, 1),
///     Err(RetainError::Memory) => println!("give some back, and go on"),
///     Err(refused) => return Err(refused.into()),
/// }
/// # Ok::<(), Error>(())
/// ```
#[non_exhaustive]
#[derive(Clone, Copy, PartialEq, Eq, Hash, Debug)]
pub enum RetainError {
    /// Memory ran out. The same call may succeed if it is made again.
    Memory,
    /// A removal was refused, which is never for too many keys.
    Refused(Refused),
}

/// Why [`copy_to`](crate::Snapshot::copy_to) did not come to the last row. Rows that it wrote
/// before are written.
///
/// ```
/// use cupolanettle::{CopyError, Error, Options, Refused};
///
/// let store = Options::new().keys(1_000).open()?;
/// let caller = store.caller()?;
/// for key in 0..1_000 {
///     caller.put(key, key)?;
/// }
/// let too_small = Options::new().keys(10).epoch(4).open()?;
/// let came = store.snapshot()?.copy_to(&too_small);
/// assert_eq!(came, Err(CopyError::Refused(Refused::RunFull)));
/// # Ok::<(), Error>(())
/// ```
#[non_exhaustive]
#[derive(Clone, Copy, PartialEq, Eq, Hash, Debug)]
pub enum CopyError {
    /// All seats of the other store are taken: the copy takes one.
    NoSeat,
    /// Memory ran out. The same call may succeed if it is made again.
    Memory,
    /// A write to the other store was refused.
    Refused(Refused),
}

/// Others changed what a transaction read, each time that it ran. Nothing was written.
///
/// ```
/// use cupolanettle::{Conflict, Error, Options};
///
/// let store = Options::new().keys(1_000).open()?;
/// let (caller, other) = (store.caller()?, store.caller()?);
/// let ended = caller.transact(|t| {
///     t.add(7, 1)?;
///     other.add(7, 1)?; // is faster, each time
///     Ok::<_, Error>(())
/// });
/// assert_eq!(ended, Err(Error::Conflict(Conflict)));
/// # Ok::<(), Error>(())
/// ```
#[derive(Clone, Copy, PartialEq, Eq, Hash, Debug)]
pub struct Conflict;

/// All 64 seats of the store are taken by callers, snapshots and iterators that are open.
///
/// ```
/// use cupolanettle::{Error, NoSeat, Options};
///
/// let store = Options::new().keys(1_000).open()?;
/// let callers: Vec<_> = (0..64).map(|_| store.caller()).collect::<Result<_, _>>()?;
/// assert!(matches!(store.caller(), Err(NoSeat)));
/// # Ok::<(), Error>(())
/// ```
///
/// Its name in a pattern stands for this error alone, as do those of [`Memory`], [`BadValue`],
/// [`BadBytes`] and [`Unseen`]. Another error does not compile there:
///
/// ```compile_fail,E0308
/// use cupolanettle::{Error, NoSeat};
///
/// fn is_no_seat(result: Result<(), Error>) -> bool {
///     matches!(result, Err(NoSeat)) // Err(Error::NoSeat(NoSeat))
/// }
/// ```
#[derive(Clone, Copy, PartialEq, Eq, Hash, Debug)]
pub struct NoSeat;

/// Memory ran out. The same call may succeed if it is made again.
///
/// ```
/// use cupolanettle::{Error, Memory, Options};
///
/// let store = Options::new().keys(1_000).open()?;
/// let caller = store.caller()?;
/// match caller.page(.., 100) {
///     Ok(page) => assert!(page.rows.is_empty()),
///     Err(Memory) => println!("give some back, and read again"),
/// }
/// # Ok::<(), Error>(())
/// ```
#[derive(Clone, Copy, PartialEq, Eq, Hash, Debug)]
pub struct Memory;

/// A value has one to eight words; these were none, or more.
///
/// ```
/// use cupolanettle::{BadValue, Value};
///
/// let words = vec![7; 9];
/// assert_eq!(Value::try_from(&words[..]), Err(BadValue));
/// ```
#[derive(Clone, Copy, PartialEq, Eq, Hash, Debug)]
pub struct BadValue;

/// The bytes have no room in a key or a value: [`Text8`](crate::codec::Text8) has up to eight, of
/// which the last one is not 0, and [`Bytes63`](crate::codec::Bytes63) up to 63.
///
/// ```
/// use cupolanettle::codec::{Bytes63, Text8};
/// use cupolanettle::BadBytes;
///
/// assert_eq!(Text8::try_from("nine bytes"), Err(BadBytes));
/// assert_eq!(Text8::try_from("zero\0"), Err(BadBytes));
/// assert_eq!(Bytes63::try_from(&[7; 64][..]), Err(BadBytes));
/// ```
#[derive(Clone, Copy, PartialEq, Eq, Hash, Debug)]
pub struct BadBytes;

/// The store has not reached this time, so that no caller of it has seen it.
///
/// ```
/// use cupolanettle::{Error, Options, Time, Unseen};
///
/// let store = Options::new().keys(1_000).open()?;
/// let caller = store.caller()?;
/// assert_eq!(caller.follow(Time::from(1)), Err(Unseen));
/// # Ok::<(), Error>(())
/// ```
#[derive(Clone, Copy, PartialEq, Eq, Hash, Debug)]
pub struct Unseen;

/// Any error of this crate, for functions that meet several: `?` turns each into it.
///
/// A cause has a name of its own, such as [`Refused`], [`Kept`] or [`NoSeat`]. Where a call has
/// several, its error is an enum whose name ends with `Error`, such as [`ChangeError`]; its
/// [`source`] is the cause that it holds, and its text leaves that out. As an `Error` all of them
/// are their causes: refusals are [`Refused`](Error::Refused), and a lack of memory is
/// [`Memory`](Error::Memory), whichever call that was. Its text and its source are those of what it
/// holds.
///
/// [`source`]: std::error::Error::source
///
/// ```
/// use cupolanettle::{Error, Options};
///
/// /// What the key has in a store of its own, after some calls.
/// fn play() -> Result<u64, Error> {
///     let store = Options::new().keys(1_000).open()?; // an OpenError
///     let caller = store.caller()?; // a NoSeat
///     caller.put(7, 70)?; // a Refused
///     let changed = caller.add(7, 1)?; // a ChangeError
///     Ok(changed.after.map_or(0, |value| value[0]))
/// }
/// assert_eq!(play()?, 71);
/// # Ok::<(), Error>(())
/// ```
///
/// A chain of errors, from what was called to its cause:
///
/// ```
/// use cupolanettle::{Error, Options, Refused};
/// use std::error::Error as _;
///
/// let store = Options::new().keys(1).epoch(4).open()?;
/// let caller = store.caller()?;
/// let snapshot = caller.snapshot()?; // keeps all versions
/// let error = (0..1_000).find_map(|_| caller.add(7, 1).err()).expect("the store is full");
/// let cause = error.source().expect("it was refused");
///
/// assert_eq!(error.to_string(), "the change was refused");
/// assert_eq!(cause.downcast_ref(), Some(&Refused::OwnSnapshot));
/// assert_eq!(Error::from(error).to_string(), cause.to_string());
/// # Ok::<(), Error>(())
/// ```
#[non_exhaustive]
#[derive(Clone, Copy, PartialEq, Eq, Hash, Debug)]
pub enum Error {
    /// A store was not opened; not for a lack of memory.
    Open(OpenError),
    /// A write was refused.
    Refused(Refused),
    /// A change did not fit the value of its key.
    Kept(Kept),
    /// A condition of a batch did not hold.
    Unmet(Unmet),
    /// A transaction had a conflict each time that it ran.
    Conflict(Conflict),
    /// A batch had no write, or too many.
    Batch(BatchError),
    /// A write that never waits was not made; it was not refused.
    Try(TryError),
    /// All seats of the store were taken.
    NoSeat(NoSeat),
    /// Memory ran out.
    Memory(Memory),
    /// The words were no value.
    BadValue(BadValue),
    /// The bytes had no room in a key or a value.
    BadBytes(BadBytes),
    /// The time was not seen.
    Unseen(Unseen),
}

// ---- what the codes of the library say

impl OpenError {
    pub(crate) fn of(code: Code) -> OpenError {
        match code {
            raw::BAD_KEYS => OpenError::Keys,
            raw::BAD_VERSIONS => OpenError::Versions,
            raw::BAD_EPOCH => OpenError::Epoch,
            raw::BAD_PATIENCE => OpenError::Patience,
            raw::BAD_WAIT => OpenError::Wait,
            raw::MEMORY => OpenError::Memory,
            raw::NO_THREAD => OpenError::NoThread,
            raw::BAD_BUILD => OpenError::Build,
            code => unexpected(code),
        }
    }
}

impl Refused {
    #[cold]
    pub(crate) fn of(code: Code) -> Refused {
        match code {
            raw::RUN_FULL => Refused::RunFull,
            raw::VERSIONS_FULL => Refused::VersionsFull,
            raw::OWN_SNAPSHOT => Refused::OwnSnapshot,
            raw::WORN => Refused::Worn,
            code => unexpected(code),
        }
    }
}

impl TransactError {
    #[cold]
    pub(crate) fn of(code: Code) -> TransactError {
        match code {
            raw::CONFLICT => TransactError::Conflict,
            raw::BAD_BATCH => TransactError::TooLong,
            raw::NO_SEAT => TransactError::NoSeat,
            raw::MEMORY => TransactError::Memory,
            code => TransactError::Refused(Refused::of(code)),
        }
    }
}

impl TryError {
    #[cold]
    pub(crate) fn of(code: Code) -> TryError {
        match code {
            raw::FULL => TryError::Full,
            raw::BUSY => TryError::Busy,
            raw::RACED => TryError::Raced,
            raw::OVERTAKEN => TryError::Overtaken,
            code => TryError::Refused(Refused::of(code)),
        }
    }
}
