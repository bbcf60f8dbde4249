//! What a store tells of itself.
use crate::Time;
use cupolanettle_sys as raw;
use std::time::Duration;

/// What a store tells of itself, as it was when [`Store::stats`](crate::Store::stats) was called;
/// other threads may have gone on between two of its numbers.
///
/// ```
/// # use cupolanettle::{Error, Options};
/// # use std::time::Duration;
/// let store = Options::new().keys(1_000).open()?;
/// let caller = store.caller()?;
/// let snapshot = caller.snapshot()?;
/// caller.put(1, 10)?;
///
/// let now = store.stats();
/// if now.oldest_age > Duration::from_secs(60) {
///     println!("somebody forgot a snapshot, at {}", now.oldest_time);
/// }
/// assert_eq!((now.callers, now.snapshots), (1, 1));
/// assert_eq!((now.oldest_time, now.clock), (snapshot.time(), caller.seen()));
/// # Ok::<(), Error>(())
/// ```
#[non_exhaustive]
#[derive(Clone, PartialEq, Eq, Hash, Debug)]
pub struct Statistics {
    /// How many bytes of memory it takes.
    pub bytes: u64,
    /// How many callers are open.
    pub callers: u64,
    /// How many snapshots are open, those of iterators among them.
    pub snapshots: u64,
    /// How many scans are open, which are iterators of C. Rust opens none.
    pub scans: u64,
    /// The time at which the oldest open snapshot reads, or [zero](Time::ZERO).
    pub oldest_time: Time,
    /// For how long that is open. Zero if none is.
    pub oldest_age: Duration,
    /// The time of the next write; while all seats are taken, what it was when last asked for.
    pub clock: Time,
    /// How many writes the current epoch has, by the clock.
    pub epoch_writes: u64,
    /// How many entries, keys and old versions, the runs of level zero had before the last merge.
    pub level_zero: u64,
    /// The same of level one.
    pub level_one: u64,
    /// So many more keys than level one has entries may have a value: the
    /// [keys](crate::Options::keys) less these.
    pub room_for_keys: u64,
    /// So many more entries fit into level one: keys and [versions](crate::Options::versions) less
    /// its entries.
    pub room_for_versions: u64,
    /// How many merges were made.
    pub merges: u64,
    /// How long the last merge took.
    pub last_merge: Duration,
    /// How long the longest merge took.
    pub longest_merge: Duration,
    /// How often writes waited for room: for a merge, or for a snapshot to be dropped.
    pub waits: u64,
    /// How long the longest of these waits was.
    pub longest_wait: Duration,
    /// How often writes were refused with [`RunFull`](crate::Refused::RunFull).
    pub run_full: u64,
    /// How often writes were refused with [`VersionsFull`](crate::Refused::VersionsFull) or
    /// [`OwnSnapshot`](crate::Refused::OwnSnapshot).
    pub versions_full: u64,
    /// How often no handle was opened, with [`NoSeat`](crate::NoSeat).
    pub no_seat: u64,
}

impl Statistics {
    pub(crate) fn of(raw: &raw::Statistics) -> Statistics {
        Statistics {
            bytes: raw.bytes,
            callers: raw.callers,
            snapshots: raw.snapshots,
            scans: raw.scans,
            oldest_time: raw.oldest_time.into(),
            oldest_age: Duration::from_nanos(raw.oldest_age),
            clock: raw.clock.into(),
            epoch_writes: raw.epoch_writes,
            level_zero: raw.level_zero,
            level_one: raw.level_one,
            room_for_keys: raw.room_for_keys,
            room_for_versions: raw.room_for_versions,
            merges: raw.merges,
            last_merge: Duration::from_nanos(raw.last_merge),
            longest_merge: Duration::from_nanos(raw.longest_merge),
            waits: raw.waits,
            longest_wait: Duration::from_nanos(raw.longest_wait),
            run_full: raw.run_full,
            versions_full: raw.versions_full,
            no_seat: raw.no_seat,
        }
    }
}
