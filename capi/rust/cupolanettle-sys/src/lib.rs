//! The library of Cupolanettle, `clsm.h`, as Rust declares and links it. Programs use the crate
//! `cupolanettle` instead, whose types keep what these calls ask.
//!
//! Declarations stand in the header's order, and the header says what each call does and answers.
//! Its head lists what callers owe, which nothing checks. Calls have their names in C; types and
//! codes do without `clsm_` and `CLSM_`.
//!
//! # Where the library is
//!
//! The build script links `libclsm.a`:
//!
//! 1. from the folder that the environment variable `CLSM_LIB_DIR` names, by an absolute path, if
//!    that is set;
//! 2. else from `capi/out` of the repository, where `make -C capi` leaves it;
//! 3. else from the folder in which `pkg-config` finds `clsm`.
//!
//! `cargo build -vv` shows which one it took.
#![warn(missing_docs)]

use std::ffi::{c_char, c_int, c_uint};
use std::marker::{PhantomData, PhantomPinned};

/// The version of these declarations.
pub const VERSION: &str = "0.2.0";

/// The same as a number: 10,000 * major + 100 * minor + patch.
pub const VERSION_NUMBER: c_int = 200;

/// Callers, snapshots and scans of a store, open at once.
pub const SEATS: usize = 64;

/// The bytes of stack that a call has to have.
pub const STACK: usize = 16384;

// ---- codes

/// The call was made.
pub const OK: c_int = 0;

/// The key has no value.
pub const NOT_FOUND: c_int = 1;

/// Nothing was written: what is there does not fit the change or batch.
pub const KEPT: c_int = 2;

/// The scan has no row left.
pub const DONE: c_int = 3;

/// Nothing was written since the last merge.
pub const IDLE: c_int = 4;

/// The epoch has no room for this write: a merge must begin first.
pub const FULL: c_int = 8;

/// Another thread entered or held the lock of writers just then.
pub const BUSY: c_int = 9;

/// Another write was faster.
pub const RACED: c_int = 10;

/// A reader found this write unfinished for too long, and cancelled it.
pub const OVERTAKEN: c_int = 11;

/// A read that is running still holds what a merge replaced.
pub const PINNED: c_int = 12;

/// What the transaction read does not stand any more: run it again.
pub const CONFLICT: c_int = 13;

/// Memory ran out.
pub const MEMORY: c_int = 16;

/// [`SEATS`] callers, snapshots and scans are open.
pub const NO_SEAT: c_int = 17;

/// More keys have a value than the store was opened for.
pub const RUN_FULL: c_int = 18;

/// Times end at 2^62.
pub const WORN: c_int = 19;

/// A caller, a snapshot or a scan is open; or in another call.
pub const IN_USE: c_int = 20;

/// The system started no thread.
pub const NO_THREAD: c_int = 21;

/// The handle is closed: nothing but a library with `CLSM_CHECKED` says so.
pub const CLOSED: c_int = 22;

/// An open snapshot keeps more versions than there is room for.
pub const VERSIONS_FULL: c_int = 25;

/// So, and the caller has a snapshot or a scan open itself.
pub const OWN_SNAPSHOT: c_int = 26;

/// Options: `keys` is out of range.
pub const BAD_KEYS: c_int = 32;

/// Options: `epoch` is out of range.
pub const BAD_EPOCH: c_int = 33;

/// Options: `patience` is out of range.
pub const BAD_PATIENCE: c_int = 34;

/// A value of no word or of more than eight; a time not reached yet.
pub const BAD_VALUE: c_int = 35;

/// A batch of more rows than an epoch has writes.
pub const BAD_BATCH: c_int = 36;

/// A pointer is null that must not be.
pub const BAD_POINTER: c_int = 37;

/// An option that the library does not know; parts of several builds.
pub const BAD_BUILD: c_int = 38;

/// Options: `merge` is neither 0 nor [`MERGE_IN_CALLS`].
pub const BAD_MERGE: c_int = 41;

/// A batch of no row.
pub const EMPTY_BATCH: c_int = 42;

/// Options: `versions` is out of range.
pub const BAD_VERSIONS: c_int = 43;

/// Options: `wait` is out of range.
pub const BAD_WAIT: c_int = 44;

// ---- types

/// A store, of which nobody but the library knows more.
#[repr(C)]
pub struct Store {
    _own: [u8; 0],
    _stays: PhantomData<(*mut u8, PhantomPinned)>,
}

/// A caller, of which nobody but the library knows more.
#[repr(C)]
pub struct Caller {
    _own: [u8; 0],
    _stays: PhantomData<(*mut u8, PhantomPinned)>,
}

/// A snapshot, of which nobody but the library knows more.
#[repr(C)]
pub struct Snapshot {
    _own: [u8; 0],
    _stays: PhantomData<(*mut u8, PhantomPinned)>,
}

/// A scan, of which nobody but the library knows more.
#[repr(C)]
pub struct Scan {
    _own: [u8; 0],
    _stays: PhantomData<(*mut u8, PhantomPinned)>,
}

/// A walk, of which nobody but the library knows more.
#[repr(C)]
pub struct Walk {
    _own: [u8; 0],
    _stays: PhantomData<(*mut u8, PhantomPinned)>,
}

/// A transaction, of which nobody but the library knows more.
#[repr(C)]
pub struct Transaction {
    _own: [u8; 0],
    _stays: PhantomData<(*mut u8, PhantomPinned)>,
}

/// The first words, as many as the length says, which is 1 to 8; length 0 is no value.
#[repr(C)]
#[derive(Clone, Copy, Debug, Default)]
pub struct Value {
    /// How many words it has.
    pub length: u64,
    /// Those behind the length are 0 in answers; in questions they do not count.
    pub words: [u64; 8],
}

/// A row of a page, a scan, a walk or a batch.
#[repr(C)]
#[derive(Clone, Copy, Debug, Default)]
pub struct Row {
    /// The key.
    pub key: u64,
    /// Its value; none in a row of a batch that removes the key.
    pub value: Value,
}

/// What a change found and left.
#[repr(C)]
#[derive(Clone, Copy, Debug, Default)]
pub struct Changed {
    /// What the key had.
    pub before: Value,
    /// What the key has.
    pub after: Value,
}

/// The end of a page.
#[repr(C)]
#[derive(Clone, Copy, Debug, Default)]
pub struct PageEnd {
    /// How many rows the page has.
    pub rows: u64,
    /// The key of the next row, if there are more.
    pub next: u64,
    /// Whether there are more.
    pub more: bool,
}

/// A range, and how many of its keys are to have a value.
#[repr(C)]
#[derive(Clone, Copy, Debug, Default)]
pub struct RangeCount {
    /// The first key.
    pub first: u64,
    /// The last key, which is included.
    pub last: u64,
    /// How many keys.
    pub keys: u64,
}

/// [`Options::merge`]: writes merge, and no thread does.
pub const MERGE_IN_CALLS: c_int = 1;

/// How to open a store; 0 is a good choice for each field.
#[repr(C)]
#[derive(Clone, Copy, Debug, Default)]
pub struct Options {
    /// Most keys with a value.
    pub keys: usize,
    /// Most writes between two merges.
    pub epoch: usize,
    /// How often a read looks again at an unfinished write before it cancels that; -1: never.
    pub patience: c_int,
    /// 0, or [`MERGE_IN_CALLS`].
    pub merge: c_int,
    /// Room for old versions that open snapshots keep, beside `keys`.
    pub versions: usize,
    /// For how many milliseconds a write waits for a snapshot to be closed; -1: not at all.
    pub wait: i64,
    /// Later options: 0.
    pub zero: [u64; 2],
}

/// What a store tells of itself.
#[repr(C)]
#[derive(Clone, Copy, Debug, Default)]
pub struct Statistics {
    /// Bytes of memory.
    pub bytes: u64,
    /// Callers that are open.
    pub callers: u64,
    /// Snapshots that are open.
    pub snapshots: u64,
    /// Scans that are open.
    pub scans: u64,
    /// The time at which the oldest snapshot or scan reads.
    pub oldest_time: u64,
    /// For how many nanoseconds it is open, or 0.
    pub oldest_age: u64,
    /// The time of the next write.
    pub clock: u64,
    /// Writes of the current epoch.
    pub epoch_writes: u64,
    /// Entries of the runs of level zero before the last merge.
    pub level_zero: u64,
    /// Entries of the run of level one before the last merge.
    pub level_one: u64,
    /// So many more keys, at least, may have a value.
    pub room_for_keys: u64,
    /// So many more entries fit into level one.
    pub room_for_versions: u64,
    /// Merges that were made.
    pub merges: u64,
    /// How many nanoseconds the last merge took.
    pub last_merge: u64,
    /// How many nanoseconds the longest merge took.
    pub longest_merge: u64,
    /// How often writes waited for room.
    pub waits: u64,
    /// How many nanoseconds the longest wait took.
    pub longest_wait: u64,
    /// How often calls were refused with [`RUN_FULL`].
    pub run_full: u64,
    /// How often they were with [`VERSIONS_FULL`] or [`OWN_SNAPSHOT`].
    pub versions_full: u64,
    /// How often they were with [`NO_SEAT`].
    pub no_seat: u64,
}

#[rustfmt::skip]
unsafe extern "C" {
    /// The name of a code in a few words; of any other number "unknown code".
    pub safe fn clsm_strerror(code: c_int) -> *const c_char;

    /// The version of the library.
    pub safe fn clsm_version() -> *const c_char;

    // ---- stores

    /// Opens an empty store, with all the memory that it will need.
    pub fn clsm_open(options_or_null: *const Options, store: *mut *mut Store) -> c_int;

    /// Closes a store, of which nothing is open any more.
    pub fn clsm_close(store: *mut Store) -> c_int;

    /// Merges all that was written so far.
    pub fn clsm_sweep(store: *mut Store) -> c_int;

    /// Opens a store with all rows that the other one has at one moment.
    pub fn clsm_copy(from: *mut Store, options_or_null: *const Options,
        to: *mut *mut Store) -> c_int;

    /// What the store tells of itself.
    pub fn clsm_stats(store: *mut Store, statistics: *mut Statistics) -> c_int;

    // ---- callers

    /// Opens a caller.
    pub fn clsm_caller_open(store: *mut Store, caller: *mut *mut Caller) -> c_int;

    /// Closes a caller; its snapshots and scans stay open.
    pub fn clsm_caller_close(caller: *mut Caller);

    /// A number from 0 to 63 that no other open caller, snapshot or scan of the store has.
    pub fn clsm_number(caller: *const Caller) -> c_uint;

    /// The time of the last call that was answered.
    pub fn clsm_time(caller: *const Caller) -> u64;

    /// The time from which on reads see all that this caller wrote and read.
    pub fn clsm_seen(caller: *const Caller) -> u64;

    /// Makes this caller read at the time or later from now on.
    pub fn clsm_follow(caller: *mut Caller, seen: u64) -> c_int;

    // ---- writes

    /// Writes a value of so many words at the key.
    pub fn clsm_put(caller: *mut Caller, key: u64, words: *const u64, count: usize) -> c_int;

    /// Removes the key, whether or not it has a value.
    pub fn clsm_remove(caller: *mut Caller, key: u64) -> c_int;

    /// As [`clsm_put`], but made once, without a wait.
    pub fn clsm_try_put(caller: *mut Caller, key: u64, words: *const u64, count: usize) -> c_int;

    /// As [`clsm_remove`], but made once, without a wait.
    pub fn clsm_try_remove(caller: *mut Caller, key: u64) -> c_int;

    /// Writes all rows at one moment.
    pub fn clsm_batch(caller: *mut Caller, rows: *const Row, count: usize) -> c_int;

    /// Writes all rows at one moment, if what is expected is there at that moment.
    pub fn clsm_batch_if(caller: *mut Caller, expected: *const Row, expected_count: usize,
        counts: *const RangeCount, counts_count: usize, rows: *const Row, count: usize,
        unmet_or_null: *mut usize) -> c_int;

    /// Removes the keys of a range, batch by batch.
    pub fn clsm_remove_range(caller: *mut Caller, first: u64, last: u64,
        removed_or_null: *mut u64) -> c_int;

    /// Removes all keys, batch by batch.
    pub fn clsm_clear(caller: *mut Caller, removed_or_null: *mut u64) -> c_int;

    /// Removes the least key of a range that has a value, and leaves its row.
    pub fn clsm_pop_first(caller: *mut Caller, first: u64, last: u64, row: *mut Row) -> c_int;

    /// Removes the greatest key of a range that has a value, and leaves its row.
    pub fn clsm_pop_last(caller: *mut Caller, first: u64, last: u64, row: *mut Row) -> c_int;

    // ---- changes

    /// Adds to the word of the key.
    pub fn clsm_add(caller: *mut Caller, key: u64, by: u64,
        changed_or_null: *mut Changed) -> c_int;

    /// Writes the value at the key if the key has none.
    pub fn clsm_put_if_absent(caller: *mut Caller, key: u64, value: *const Value,
        changed_or_null: *mut Changed) -> c_int;

    /// Writes the desired value at the key if the key has the expected one.
    pub fn clsm_replace(caller: *mut Caller, key: u64, expected_or_null: *const Value,
        desired_or_null: *const Value, changed_or_null: *mut Changed) -> c_int;

    // ---- reads

    /// The value of the key.
    pub fn clsm_get(caller: *mut Caller, key: u64, value_or_null: *mut Value) -> c_int;

    /// The values of so many keys at one moment, each at the place of its key.
    pub fn clsm_get_many(caller: *mut Caller, keys: *const u64, count: usize,
        values: *mut Value) -> c_int;

    /// How many keys of the range have a value.
    pub fn clsm_count(caller: *mut Caller, first: u64, last: u64, keys: *mut u64) -> c_int;

    /// The first rows of the range by rising key, as many as there is room for.
    pub fn clsm_page(caller: *mut Caller, first: u64, last: u64, rows: *mut Row, room: usize,
        end: *mut PageEnd) -> c_int;

    /// The last rows of the range by falling key, as many as there is room for.
    pub fn clsm_page_down(caller: *mut Caller, last: u64, first: u64, rows: *mut Row, room: usize,
        end: *mut PageEnd) -> c_int;

    /// The row of the least key of the range that has a value.
    pub fn clsm_first(caller: *mut Caller, first: u64, last: u64, row: *mut Row) -> c_int;

    /// The row of the greatest key of the range that has a value.
    pub fn clsm_last(caller: *mut Caller, first: u64, last: u64, row: *mut Row) -> c_int;

    // ---- snapshots

    /// Opens a snapshot of the present.
    pub fn clsm_snapshot_open(caller: *mut Caller, snapshot: *mut *mut Snapshot) -> c_int;

    /// Opens a snapshot of the present for any thread, without a caller.
    pub fn clsm_store_snapshot(store: *mut Store, snapshot: *mut *mut Snapshot) -> c_int;

    /// Closes a snapshot.
    pub fn clsm_snapshot_close(snapshot: *mut Snapshot);

    /// The time at which it reads.
    pub fn clsm_snapshot_time(snapshot: *const Snapshot) -> u64;

    /// As [`clsm_number`].
    pub fn clsm_snapshot_number(snapshot: *const Snapshot) -> c_uint;

    /// As [`clsm_get`], of the snapshot's map.
    pub fn clsm_snapshot_get(snapshot: *mut Snapshot, key: u64,
        value_or_null: *mut Value) -> c_int;

    /// As [`clsm_get_many`], of the snapshot's map.
    pub fn clsm_snapshot_get_many(snapshot: *mut Snapshot, keys: *const u64, count: usize,
        values: *mut Value) -> c_int;

    /// As [`clsm_count`], of the snapshot's map.
    pub fn clsm_snapshot_count(snapshot: *mut Snapshot, first: u64, last: u64,
        keys: *mut u64) -> c_int;

    /// As [`clsm_page`], of the snapshot's map.
    pub fn clsm_snapshot_page(snapshot: *mut Snapshot, first: u64, last: u64, rows: *mut Row,
        room: usize, end: *mut PageEnd) -> c_int;

    /// As [`clsm_page_down`], of the snapshot's map.
    pub fn clsm_snapshot_page_down(snapshot: *mut Snapshot, last: u64, first: u64, rows: *mut Row,
        room: usize, end: *mut PageEnd) -> c_int;

    /// As [`clsm_first`], of the snapshot's map.
    pub fn clsm_snapshot_first(snapshot: *mut Snapshot, first: u64, last: u64,
        row: *mut Row) -> c_int;

    /// As [`clsm_last`], of the snapshot's map.
    pub fn clsm_snapshot_last(snapshot: *mut Snapshot, first: u64, last: u64,
        row: *mut Row) -> c_int;

    // ---- scans

    /// Opens a scan of the rows from first to last, both included.
    pub fn clsm_scan_open(caller: *mut Caller, first: u64, last: u64,
        scan: *mut *mut Scan) -> c_int;

    /// The next row, by rising key.
    pub fn clsm_scan_next(scan: *mut Scan, row: *mut Row) -> c_int;

    /// Closes a scan, wherever it is.
    pub fn clsm_scan_close(scan: *mut Scan);

    // ---- walks

    /// Begins a walk over the rows from first to last, both included.
    pub fn clsm_walk_open(caller: *mut Caller, first: u64, last: u64,
        walk: *mut *mut Walk) -> c_int;

    /// The next row, by rising key.
    pub fn clsm_walk_next(walk: *mut Walk, row: *mut Row) -> c_int;

    /// Ends a walk, wherever it is.
    pub fn clsm_walk_close(walk: *mut Walk);

    // ---- transactions

    /// Opens a transaction.
    pub fn clsm_transaction_open(caller: *mut Caller, transaction: *mut *mut Transaction) -> c_int;

    /// The value that the key has to it.
    pub fn clsm_transaction_get(transaction: *mut Transaction, key: u64,
        value_or_null: *mut Value) -> c_int;

    /// The same of several keys.
    pub fn clsm_transaction_get_many(transaction: *mut Transaction, keys: *const u64,
        count: usize, values: *mut Value) -> c_int;

    /// The first rows of the range, with its own writes among them.
    pub fn clsm_transaction_page(transaction: *mut Transaction, first: u64, last: u64,
        rows: *mut Row, room: usize, end: *mut PageEnd) -> c_int;

    /// The last rows of the range by falling key, with its own writes among them.
    pub fn clsm_transaction_page_down(transaction: *mut Transaction, last: u64, first: u64,
        rows: *mut Row, room: usize, end: *mut PageEnd) -> c_int;

    /// The row of the least key of the range that has a value to it.
    pub fn clsm_transaction_first(transaction: *mut Transaction, first: u64, last: u64,
        row: *mut Row) -> c_int;

    /// The row of the greatest key of the range that has a value to it.
    pub fn clsm_transaction_last(transaction: *mut Transaction, first: u64, last: u64,
        row: *mut Row) -> c_int;

    /// How many keys of the range have a value to it.
    pub fn clsm_transaction_count(transaction: *mut Transaction, first: u64, last: u64,
        keys: *mut u64) -> c_int;

    /// Notes a write of so many words at the key.
    pub fn clsm_transaction_put(transaction: *mut Transaction, key: u64, words: *const u64,
        count: usize) -> c_int;

    /// Notes the removal of the key.
    pub fn clsm_transaction_remove(transaction: *mut Transaction, key: u64) -> c_int;

    /// Reads the key, adds to its word, and notes the sum.
    pub fn clsm_transaction_add(transaction: *mut Transaction, key: u64, by: u64,
        changed_or_null: *mut Changed) -> c_int;

    /// Makes its writes, if all that it read still stands.
    pub fn clsm_transaction_commit(transaction: *mut Transaction) -> c_int;

    /// Closes a transaction; what it noted is not written.
    pub fn clsm_transaction_close(transaction: *mut Transaction);

    // ---- closing, and setting the pointer to null in the same call

    /// As [`clsm_close`].
    pub fn clsm_close_at(store: *mut *mut Store) -> c_int;

    /// As [`clsm_caller_close`].
    pub fn clsm_caller_close_at(caller: *mut *mut Caller);

    /// As [`clsm_snapshot_close`].
    pub fn clsm_snapshot_close_at(snapshot: *mut *mut Snapshot);

    /// As [`clsm_scan_close`].
    pub fn clsm_scan_close_at(scan: *mut *mut Scan);
}
