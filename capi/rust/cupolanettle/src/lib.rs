//! An ordered map in memory for many threads, from `u64` to values of one to eight words.
//!
//! Reads block for no write and no merge, and a snapshot reads the map as it was. A thread of the
//! store merges old versions in the background. The map is the proved core of Cupolanettle, a
//! concurrent log-structured merge map: every answer of a single call is that of a plain map of
//! the writes below its time.
//!
//! # A word counter
//!
//! Four threads count words by their lengths. Each has a caller. An [addition](Caller::add) is one
//! step, so that none is lost where two threads count words of one length.
//!
//! ```
//! use cupolanettle::{Error, Options};
//! use std::thread;
//!
//! const TEXT: &str = "the quick brown fox jumps over the lazy dog";
//! const THREADS: usize = 4;
//!
//! fn main() -> Result<(), Error> {
//!     let store = Options::new().keys(1_000).open()?;
//!     thread::scope(|scope| {
//!         let counting: Vec<_> = (0..THREADS)
//!             .map(|own| {
//!                 let store = &store;
//!                 scope.spawn(move || -> Result<(), Error> {
//!                     let caller = store.caller()?;
//!                     for word in TEXT.split(' ').skip(own).step_by(THREADS) {
//!                         caller.add(word.len() as u64, 1)?;
//!                     }
//!                     Ok(())
//!                 })
//!             })
//!             .collect();
//!         counting.into_iter().try_for_each(|thread| thread.join().unwrap())
//!     })?;
//!
//!     let mut counts = Vec::new();
//!     for row in store.snapshot()?.range(..) {
//!         let (length, count) = row?;
//!         counts.push((length, count[0]));
//!     }
//!     assert_eq!(counts, [(3, 4), (4, 2), (5, 3)]);
//!     Ok(())
//! }
//! ```
//!
//! # The parts
//!
//! - [`Options`] opens a [`Store`] with all the memory that it will ever need.
//! - A [`Caller`] writes and reads. Each thread has its own, or takes one of a [`Pool`].
//! - A [`Snapshot`] reads the map as it was when it was opened.
//! - A [`Range`] gives row after row of a snapshot, and a [`Walk`] those of the present.
//! - A [`Value`] is a slice of one to eight words. The [codecs](codec) make keys and values of
//!   signed numbers, pairs, floating-point numbers, texts and bytes.
//! - [`Statistics`] are what a store tells of itself.
//!
//! # Writes and changes
//!
//! [`Caller::put`] and [`Caller::remove`] write without a look at what the key has. A change looks
//! and writes in one step, and answers what the key had and has: [`Caller::add`],
//! [`Caller::put_if_absent`], [`Caller::replace`], which is a map's compare-and-exchange, and
//! [`Caller::update`] for any function of the old value. [`Caller::get_or_insert_with`] answers the
//! value of a key, which a function makes if there is none. A [`Batch`] has writes of several keys,
//! which [`Caller::batch`] makes at one moment.
//!
//! # Iterators
//!
//! [`Caller::range`] and [`Snapshot::range`] go by a snapshot: all rows are of one moment, and the
//! store keeps old versions meanwhile. [`Caller::walk`] goes without one, for loops that write as
//! they read. It is weakly consistent, as iterators of concurrent skip lists are: it reads up to 64
//! rows at a time, each time as they are by then. [`Caller::retain`] removes rows as it walks;
//! [`Caller::remove_range`] and [`Caller::clear`] remove all, batch by batch.
//!
//! ```
//! # use cupolanettle::{Error, Options};
//! # let store = Options::new().keys(1_000).open()?;
//! # let caller = store.caller()?;
//! # (0..500).try_for_each(|key| caller.put(key, key).map(drop))?;
//! for row in caller.walk(..)? {
//!     let (key, value) = row?;
//!     caller.put(key, 2 * value[0])?;
//! }
//! let removed = caller.retain(.., |_, value| value[0] >= 900)?;
//! assert_eq!((removed, caller.range(..)?.count()), (450, 50));
//! # Ok::<(), Error>(())
//! ```
//!
//! # Seats
//!
//! A store has 64 seats: each caller, each snapshot and each iterator that has a snapshot of its
//! own takes one while it is open. A caller keeps one more for its next snapshot, until somebody
//! else needs it.
//!
//! More threads than seats share a [`Pool`] of callers. A thread takes one for a piece of work, and
//! sleeps while all are taken:
//!
//! ```
//! use cupolanettle::{Error, Options};
//! use std::thread;
//!
//! const THREADS: u64 = 200;
//! const CALLERS: usize = 8;
//!
//! fn main() -> Result<(), Error> {
//!     let store = Options::new().keys(1_000).open()?;
//!     let pool = store.pool(CALLERS)?;
//!     thread::scope(|scope| {
//!         for own in 0..THREADS {
//!             let pool = &pool;
//!             scope.spawn(move || {
//!                 let caller = pool.take(); // a drop gives it back
//!                 caller.put(own, own).expect("there is room");
//!                 caller.add(THREADS, 1).expect("there is room");
//!             });
//!         }
//!     });
//!     assert_eq!(pool.take().get(THREADS), Some(THREADS.into()));
//!     Ok(())
//! }
//! ```
//!
//! Threads that live outside a scope share the pool in an [`Arc`](std::sync::Arc).
//!
//! # Times
//!
//! Each write has a [time](Time) of its own; later writes have greater ones. A read has a time
//! too: it answers by all writes below that, and by no other. No caller's times run back.
//!
//! # What a read sees
//!
//! A call that ended before another began, with a lock, a channel, a join or a sequentially
//! consistent atomic between them, is seen by it. [`Caller::seen`] and [`Caller::follow`] are for
//! the rest, such as a message by a socket, a file or a relaxed atomic.
//!
//! That holds since each read is at the time that the store's clock shows as the read begins, and
//! a write ends when the clock shows more than its time. All atomics of the core are sequentially
//! consistent, so that a read that begins later finds that time on the clock, or a greater one.
//! Within one caller this is proved; between callers it is tested, where threads hand over what
//! they wrote in each of these ways.
//!
//! # Memory
//!
//! A store takes all its memory when it is opened. [`Options::keys`] says how many keys it has
//! room for. Where there are more, writes that would give one more key a value are refused with
//! [`Refused::RunFull`]; all others are taken, and once keys were removed, these are, too.
//! [`Snapshot::copy_to`] copies all rows into a larger store.
//!
//! Each write is a version, and merges drop the versions that no open snapshot may read.
//! [`Options::versions`] says for how many the store has room beside its keys. If a snapshot stays
//! open for more writes than that, writes wait for it to be dropped, for up to [`Options::wait`],
//! and then are refused with [`Refused::VersionsFull`]. A caller that has a snapshot open itself
//! would wait for its own thread, and is refused at once, with [`Refused::OwnSnapshot`].
//! [`Store::stats`] tells how much room there is, and how old the oldest snapshot is.
//!
//! # Names of other maps
//!
//! A search of these pages finds most calls by the names that they have elsewhere, too.
//!
//! Elsewhere | Here
//! --|--
//! `BTreeMap::insert`, `remove` | [`Caller::put`], [`Caller::remove`]; [`Caller::update`] and [`Caller::replace`] also tell the old value
//! `get_mut`, `iter_mut` | [`Caller::update`]; a [`Caller::walk`] that writes each row
//! `entry`, `or_insert_with` | [`Caller::update`], [`Caller::get_or_insert_with`]
//! `range`, `iter` | [`Caller::range`], [`Snapshot::iter`]: rows of one moment; [`Caller::walk`] for others
//! `rev`, `last_key_value` | those of a [`Range`]; [`Caller::page_down`]; [`Caller::last_key_value`]
//! `RocksDB`'s `multi_get`, etcd's `Txn` | [`Caller::get_many`], [`Caller::batch_if`]
//! `len` | [`Caller::count`], which visits the keys
//! `pop_first`, `pop_last` | [`Caller::pop_first`], [`Caller::pop_last`]
//! `extend`, `collect` | those of a [`Batch`], at most as long as an epoch
//! `clear`, `retain` | [`Caller::clear`], [`Caller::retain`], which are not one moment
//! `RocksDB`'s `delete_range` | [`Caller::remove_range`], which is not one moment
//! `clone` of a map, `RocksDB`'s checkpoints | [`Snapshot::copy_to`]
//! dashmap's `alter`, `entry`, `iter` | [`Caller::update`], [`Caller::get_or_insert_with`], [`Caller::walk`]
//! crossbeam's `SkipMap::front`, `get_or_insert_with` | [`Caller::first_key_value`], [`Caller::get_or_insert_with`]
//! an atomic's `fetch_add`, `compare_exchange`, `fetch_update` | [`Caller::add`], [`Caller::replace`], [`Caller::update`]
//! sled's `compare_and_swap`, `apply_batch`, `scan_prefix` | [`Caller::replace`], [`Caller::batch`], [`Text8::prefixed`](codec::Text8::prefixed)
//! heed's and redb's read transactions and types | [`Snapshot`]; [`codec`]
//! sled's `transaction` | [`Caller::transact`]
//! r2d2's `Pool::get` | [`Pool::take`]
//! files, `flush`, recovery | none: the map is in memory
//!
//! # What is trusted
//!
//! The answer of each call of the core, and its memory safety, are proved. The library for C
//! around it is not, with its locks, its seats and its thread, nor is this crate: its `unsafe`
//! blocks, all in one file, pass to the library what that asks. `malloc` is to align by 16, no
//! call may be made from a signal handler, none but drops in a forked child, and each needs 16 KiB
//! of stack.
#![warn(missing_docs)]
#![deny(unsafe_code, unsafe_op_in_unsafe_fn)]

mod batch;
mod caller;
mod change;
pub mod codec;
mod conditions;
mod error;
mod library;
mod pool;
mod range;
mod snapshot;
mod statistics;
mod store;
mod time;
mod transaction;
mod value;
mod walk;

pub use batch::Batch;
pub use caller::Caller;
pub use change::{Changed, Kept};
pub use conditions::{Conditions, Unmet};
pub use error::{
    BadBytes, BadValue, BatchError, BatchIfError, ChangeError, Conflict, CopyError, Error, Memory,
    NoSeat, OpenError, Refused, RetainError, TransactError, TryError, Unseen,
};
pub use pool::{Pool, PooledCaller};
pub use range::{Page, Range};
pub use snapshot::Snapshot;
pub use statistics::Statistics;
pub use store::{Options, Store};
pub use time::Time;
pub use transaction::Transaction;
pub use value::Value;
pub use walk::Walk;

/// The programs of the readme, for tests.
#[cfg(doctest)]
#[doc = include_str!("../../README.md")]
struct Readme;
