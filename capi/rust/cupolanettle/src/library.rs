//! Handles of the library, and its calls. All unsafe code of this crate stands here.
//!
//! What the library asks of its callers stands at the head of `clsm.h`. Handles are used between
//! their open and their close: the calls here are those of a handle, which its drop alone closes,
//! and which keeps its store. They are in one call at a time: a [`Handle`] is not `Sync`, and no
//! call runs code of others. A walk borrows its caller, and so is in that one's thread. Other
//! pointers are to objects of a frame, to slices and to vectors.
#![allow(unsafe_code)]

use crate::error::{Memory, NoSeat};
use crate::range::Keys;
use crate::value::Value;
use crate::Time;
use cupolanettle_sys as raw;
use std::ffi::{c_int, c_uint, CStr};
use std::marker::PhantomData;
use std::mem::MaybeUninit;
use std::ptr::{null_mut, NonNull};
use std::sync::Arc;

/// What a call answers: one of the codes of `cupolanettle_sys`.
pub(crate) type Code = c_int;

/// The library has answered what it never does where its handles are used as they are here.
#[cold]
pub(crate) fn unexpected(code: Code) -> ! {
    // SAFETY: it is a text that stays, whatever the code.
    let name = unsafe { CStr::from_ptr(raw::clsm_strerror(code)) };
    panic!("the library answers {code}: {}", name.to_string_lossy())
}

/// Whether the library that was linked is that of these declarations.
fn is_of_this_build() -> bool {
    // SAFETY: it is a text that stays.
    let version = unsafe { CStr::from_ptr(raw::clsm_version()) };
    version.to_bytes() == raw::VERSION.as_bytes()
}

/// Where a handle lies.
struct Place<K>(NonNull<K>);

// SAFETY: a place allows nothing: each call says why it may be made.
unsafe impl<K> Send for Place<K> {}

// SAFETY: as above.
unsafe impl<K> Sync for Place<K> {}

// ---- stores

/// An open store.
pub(crate) struct OpenStore {
    at: Place<raw::Store>,
}

impl OpenStore {
    /// Opens a store, or answers the code of the refusal.
    pub(crate) fn open(options: &raw::Options) -> Result<OpenStore, Code> {
        if !is_of_this_build() {
            return Err(raw::BAD_BUILD);
        }
        let mut at = null_mut();
        // SAFETY: the options are only read, and `at` is of this frame.
        let code = unsafe { raw::clsm_open(options, &raw mut at) };
        NonNull::new(at).map(|at| OpenStore { at: Place(at) }).ok_or(code)
    }

    fn place(&self) -> *mut raw::Store {
        self.at.0.as_ptr()
    }

    pub(crate) fn sweep(&self) -> Code {
        // SAFETY: the store is open, and may be in several calls.
        unsafe { raw::clsm_sweep(self.place()) }
    }

    pub(crate) fn stats(&self) -> raw::Statistics {
        let mut statistics = raw::Statistics::default();
        // SAFETY: as in `sweep`, and `statistics` is of this frame.
        let code = unsafe { raw::clsm_stats(self.place(), &raw mut statistics) };
        match code {
            raw::OK => statistics,
            code => unexpected(code),
        }
    }

    /// Opens a caller of the store.
    pub(crate) fn caller(self: &Arc<OpenStore>) -> Result<Handle<raw::Caller>, NoSeat> {
        // SAFETY: as in `sweep`, and the place is one for the handle.
        Handle::open(self, |at| unsafe { raw::clsm_caller_open(self.place(), at) })
    }

    /// Opens a snapshot of the store.
    pub(crate) fn snapshot(self: &Arc<OpenStore>) -> Result<Handle<raw::Snapshot>, NoSeat> {
        // SAFETY: as in `caller`.
        Handle::open(self, |at| unsafe { raw::clsm_store_snapshot(self.place(), at) })
    }
}

impl Drop for OpenStore {
    fn drop(&mut self) {
        // SAFETY: the store is open, nothing uses it after its drop, and as each handle keeps its
        // store, none of them is open.
        let code = unsafe { raw::clsm_close(self.place()) };
        debug_assert_eq!(code, raw::OK);
    }
}

// ---- handles

/// What the compiler names where a thread would share another one's caller.
pub(crate) struct OneCallerForEachThread;

/// What the compiler names where a thread would share another one's snapshot.
pub(crate) struct OneSnapshotForEachThread;

type Close<K> = unsafe extern "C" fn(*mut K);
type Number<K> = unsafe extern "C" fn(*const K) -> c_uint;
type TimeOf<K> = unsafe extern "C" fn(*const K) -> u64;
type Get<K> = unsafe extern "C" fn(*mut K, u64, *mut raw::Value) -> Code;
type GetMany<K> = unsafe extern "C" fn(*mut K, *const u64, usize, *mut raw::Value) -> Code;
type Count<K> = unsafe extern "C" fn(*mut K, u64, u64, *mut u64) -> Code;
type EndOf = unsafe extern "C" fn(*mut raw::Transaction, u64, u64, *mut raw::Row) -> Code;
type Page<K> =
    unsafe extern "C" fn(*mut K, u64, u64, *mut raw::Row, usize, *mut raw::PageEnd) -> Code;

/// A kind of handle, and the calls that all kinds have.
pub(crate) trait Kind: Sized {
    /// Its name tells how threads may use such handles.
    type Rule;
    const CLOSE: Close<Self>;
    const NUMBER: Number<Self>;
    const TIME: TimeOf<Self>;
    const GET: Get<Self>;
    const GET_MANY: GetMany<Self>;
    const COUNT: Count<Self>;
    const PAGE: Page<Self>;
    const PAGE_DOWN: Page<Self>;
}

impl Kind for raw::Caller {
    type Rule = OneCallerForEachThread;
    const CLOSE: Close<Self> = raw::clsm_caller_close;
    const NUMBER: Number<Self> = raw::clsm_number;
    const TIME: TimeOf<Self> = raw::clsm_time;
    const GET: Get<Self> = raw::clsm_get;
    const GET_MANY: GetMany<Self> = raw::clsm_get_many;
    const COUNT: Count<Self> = raw::clsm_count;
    const PAGE: Page<Self> = raw::clsm_page;
    const PAGE_DOWN: Page<Self> = raw::clsm_page_down;
}

impl Kind for raw::Snapshot {
    type Rule = OneSnapshotForEachThread;
    const CLOSE: Close<Self> = raw::clsm_snapshot_close;
    const NUMBER: Number<Self> = raw::clsm_snapshot_number;
    const TIME: TimeOf<Self> = raw::clsm_snapshot_time;
    const GET: Get<Self> = raw::clsm_snapshot_get;
    const GET_MANY: GetMany<Self> = raw::clsm_snapshot_get_many;
    const COUNT: Count<Self> = raw::clsm_snapshot_count;
    const PAGE: Page<Self> = raw::clsm_snapshot_page;
    const PAGE_DOWN: Page<Self> = raw::clsm_snapshot_page_down;
}

/// An open handle, which goes from thread to thread, but is never shared.
pub(crate) struct Handle<K: Kind> {
    at: Place<K>,
    rule: PhantomData<*const K::Rule>,
    /// Dropped behind the handle.
    store: Arc<OpenStore>,
}

// SAFETY: the library lets its handles go to another thread, if the two threads synchronise. They
// do whenever a value goes from one to the other.
unsafe impl<K: Kind> Send for Handle<K> {}

impl<K: Kind> Handle<K> {
    /// The handle that a call opens at the place that it is passed.
    fn open(
        store: &Arc<OpenStore>,
        call: impl FnOnce(*mut *mut K) -> Code,
    ) -> Result<Handle<K>, NoSeat> {
        let mut at = null_mut();
        let code = call(&raw mut at);
        match NonNull::new(at) {
            Some(at) => Ok(Handle { at: Place(at), rule: PhantomData, store: Arc::clone(store) }),
            None if code == raw::NO_SEAT => Err(NoSeat),
            None => unexpected(code),
        }
    }

    #[inline]
    fn place(&self) -> *mut K {
        self.at.0.as_ptr()
    }

    pub(crate) fn number(&self) -> usize {
        // SAFETY: the handle is open, and in no other call.
        unsafe { K::NUMBER(self.place()) as usize }
    }

    #[inline]
    pub(crate) fn time(&self) -> Time {
        // SAFETY: as in `number`.
        unsafe { K::TIME(self.place()) }.into()
    }

    #[inline]
    pub(crate) fn get(&self, key: u64) -> Option<Value> {
        let mut found = MaybeUninit::uninit();
        // SAFETY: as in `number`, and `found` is of this frame.
        let code = unsafe { K::GET(self.place(), key, found.as_mut_ptr()) };
        match code {
            // SAFETY: a call that answers so has written what it found.
            raw::OK | raw::NOT_FOUND => Value::from_raw(unsafe { found.assume_init() }),
            code => unexpected(code),
        }
    }

    #[inline]
    pub(crate) fn contains_key(&self, key: u64) -> bool {
        // SAFETY: as in `number`, and null stands for no place to copy the value to.
        let code = unsafe { K::GET(self.place(), key, null_mut()) };
        match code {
            raw::OK => true,
            raw::NOT_FOUND => false,
            code => unexpected(code),
        }
    }

    /// Reads each key at one time, and writes its value at the same place.
    fn get_all(&self, keys: &[u64], values: &mut [MaybeUninit<raw::Value>]) {
        assert_eq!(keys.len(), values.len());
        let into = values.as_mut_ptr().cast();
        // SAFETY: as in `number`, the keys are one slice, and there is room for as many values.
        let code = unsafe { K::GET_MANY(self.place(), keys.as_ptr(), keys.len(), into) };
        if code != raw::OK {
            unexpected(code);
        }
    }

    /// The values of the keys at one time, without memory.
    pub(crate) fn get_array<const N: usize>(&self, keys: [u64; N]) -> [Option<Value>; N] {
        let mut found = [MaybeUninit::uninit(); N];
        self.get_all(&keys, &mut found);
        // SAFETY: the call has written a value at the place of each key.
        found.map(|value| Value::from_raw(unsafe { value.assume_init() }))
    }

    /// The values of the keys at one time.
    pub(crate) fn get_many(&self, keys: &[u64]) -> Result<Vec<raw::Value>, Memory> {
        let mut found = Vec::new();
        found.try_reserve_exact(keys.len()).map_err(|_| Memory)?;
        self.get_all(keys, &mut found.spare_capacity_mut()[..keys.len()]);
        // SAFETY: the call has written a value at the place of each key.
        unsafe { found.set_len(keys.len()) };
        Ok(found)
    }

    pub(crate) fn count(&self, keys: Keys) -> u64 {
        let mut count = 0;
        // SAFETY: as in `number`, and `count` is of this frame.
        let code = unsafe { K::COUNT(self.place(), keys.first, keys.last, &raw mut count) };
        match code {
            raw::OK => count,
            code => unexpected(code),
        }
    }

    /// Reads the first rows of the range, at most so many, in place of those that the vector has.
    /// Answers the key of the next one, if there are more.
    pub(crate) fn page(
        &self,
        keys: Keys,
        most: usize,
        rows: &mut Vec<raw::Row>,
    ) -> Result<Option<u64>, Memory> {
        self.page_by(K::PAGE, [keys.first, keys.last], most, rows)
    }

    /// The same by falling key: the last rows of the range.
    pub(crate) fn page_down(
        &self,
        keys: Keys,
        most: usize,
        rows: &mut Vec<raw::Row>,
    ) -> Result<Option<u64>, Memory> {
        self.page_by(K::PAGE_DOWN, [keys.last, keys.first], most, rows)
    }

    #[allow(clippy::cast_possible_truncation)] // no more rows than there was room for
    fn page_by(
        &self,
        call: Page<K>,
        [from, to]: [u64; 2],
        most: usize,
        rows: &mut Vec<raw::Row>,
    ) -> Result<Option<u64>, Memory> {
        let mut end = raw::PageEnd::default();
        rows.clear();
        rows.try_reserve_exact(most).map_err(|_| Memory)?;
        let (into, told) = (rows.as_mut_ptr(), &raw mut end);
        // SAFETY: as in `number`, the vector has room for so many rows, and `end` is of this
        // frame.
        let code = unsafe { call(self.place(), from, to, into, most, told) };
        match code {
            // SAFETY: a call that answers so has written so many rows, for which there was room.
            raw::OK => unsafe { rows.set_len(end.rows as usize) },
            code => unexpected(code),
        }
        Ok(end.more.then_some(end.next))
    }
}

impl<K: Kind> Drop for Handle<K> {
    fn drop(&mut self) {
        // SAFETY: as in `number`, and nothing uses the handle after its drop.
        unsafe { K::CLOSE(self.place()) };
    }
}

// ---- callers

impl Handle<raw::Caller> {
    #[inline]
    pub(crate) fn seen(&self) -> Time {
        // SAFETY: as in `number`.
        unsafe { raw::clsm_seen(self.place()) }.into()
    }

    pub(crate) fn follow(&self, seen: Time) -> Code {
        // SAFETY: as in `number`.
        unsafe { raw::clsm_follow(self.place(), seen.into()) }
    }

    /// Opens a snapshot, which is a read of this caller.
    pub(crate) fn snapshot(&self) -> Result<Handle<raw::Snapshot>, NoSeat> {
        // SAFETY: as in `number`, and the place is one for the handle.
        Handle::open(&self.store, |at| unsafe { raw::clsm_snapshot_open(self.place(), at) })
    }

    /// Begins a walk, which reads by this caller.
    pub(crate) fn walk(&self, keys: Keys) -> Result<OpenWalk<'_>, Memory> {
        let mut at = null_mut();
        let Keys { first, last } = keys;
        // SAFETY: as in `number`, and `at` is of this frame.
        let code = unsafe { raw::clsm_walk_open(self.place(), first, last, &raw mut at) };
        match NonNull::new(at) {
            Some(at) => Ok(OpenWalk { at: Place(at), caller: PhantomData }),
            None if code == raw::MEMORY => Err(Memory),
            None => unexpected(code),
        }
    }

    #[inline]
    pub(crate) fn put(&self, key: u64, value: &[u64]) -> Code {
        // SAFETY: as in `number`, and the words are one slice.
        unsafe { raw::clsm_put(self.place(), key, value.as_ptr(), value.len()) }
    }

    #[inline]
    pub(crate) fn remove(&self, key: u64) -> Code {
        // SAFETY: as in `number`.
        unsafe { raw::clsm_remove(self.place(), key) }
    }

    #[inline]
    pub(crate) fn try_put(&self, key: u64, value: &[u64]) -> Code {
        // SAFETY: as in `put`.
        unsafe { raw::clsm_try_put(self.place(), key, value.as_ptr(), value.len()) }
    }

    #[inline]
    pub(crate) fn try_remove(&self, key: u64) -> Code {
        // SAFETY: as in `number`.
        unsafe { raw::clsm_try_remove(self.place(), key) }
    }

    pub(crate) fn batch(&self, rows: &[raw::Row]) -> Code {
        // SAFETY: as in `number`, and the rows are one slice.
        unsafe { raw::clsm_batch(self.place(), rows.as_ptr(), rows.len()) }
    }

    /// Removes the keys of the range, batch by batch; the second is how many it has removed.
    pub(crate) fn remove_range(&self, keys: Keys) -> (Code, u64) {
        let Keys { first, last } = keys;
        let mut removed = 0;
        // SAFETY: as in `number`, and `removed` is of this frame.
        let code = unsafe { raw::clsm_remove_range(self.place(), first, last, &raw mut removed) };
        (code, removed)
    }

    /// Removes the first row of the range, and answers it.
    pub(crate) fn pop_first(&self, keys: Keys) -> (Code, raw::Row) {
        let mut row = raw::Row::default();
        // SAFETY: as in `number`, and `row` is of this frame.
        let code =
            unsafe { raw::clsm_pop_first(self.place(), keys.first, keys.last, &raw mut row) };
        (code, row)
    }

    /// Removes the last row of the range, and answers it.
    pub(crate) fn pop_last(&self, keys: Keys) -> (Code, raw::Row) {
        let mut row = raw::Row::default();
        // SAFETY: as in `pop_first`.
        let code = unsafe { raw::clsm_pop_last(self.place(), keys.first, keys.last, &raw mut row) };
        (code, row)
    }

    /// Writes the rows if the conditions hold; else the second is the place of the first that does
    /// not.
    pub(crate) fn batch_if(
        &self,
        expected: &[raw::Row],
        counts: &[raw::RangeCount],
        rows: &[raw::Row],
    ) -> (Code, usize) {
        let mut unmet = 0;
        let (at, count) = (rows.as_ptr(), rows.len());
        let (has, of) = (expected.as_ptr(), counts.as_ptr());
        let (first, others) = (expected.len(), counts.len());
        // SAFETY: as in `number`, all three are slices, and `unmet` is of this frame.
        let code = unsafe {
            raw::clsm_batch_if(self.place(), has, first, of, others, at, count, &raw mut unmet)
        };
        (code, unmet)
    }

    #[inline]
    pub(crate) fn add(&self, key: u64, by: u64) -> (Code, raw::Changed) {
        let mut changed = raw::Changed::default();
        // SAFETY: as in `number`, and `changed` is of this frame.
        let code = unsafe { raw::clsm_add(self.place(), key, by, &raw mut changed) };
        (code, changed)
    }

    #[inline]
    pub(crate) fn replace(
        &self,
        key: u64,
        expected: &raw::Value,
        desired: &raw::Value,
    ) -> (Code, raw::Changed) {
        let mut changed = raw::Changed::default();
        // SAFETY: as in `add`, and the values are only read.
        let code =
            unsafe { raw::clsm_replace(self.place(), key, expected, desired, &raw mut changed) };
        (code, changed)
    }
}

// ---- transactions

/// A transaction, which its caller outlives: it borrows that, as a walk does.
pub(crate) struct OpenTransaction<'a> {
    at: Place<raw::Transaction>,
    caller: PhantomData<&'a Handle<raw::Caller>>,
}

impl Handle<raw::Caller> {
    pub(crate) fn transaction(&self) -> Result<OpenTransaction<'_>, Memory> {
        let mut at = null_mut();
        // SAFETY: as in `number`, and `at` is of this frame.
        let code = unsafe { raw::clsm_transaction_open(self.place(), &raw mut at) };
        match NonNull::new(at) {
            Some(at) => Ok(OpenTransaction { at: Place(at), caller: PhantomData }),
            None if code == raw::MEMORY => Err(Memory),
            None => unexpected(code),
        }
    }
}

impl OpenTransaction<'_> {
    fn place(&mut self) -> *mut raw::Transaction {
        self.at.0.as_ptr()
    }

    pub(crate) fn get(&mut self, key: u64) -> (Code, raw::Value) {
        let mut found = raw::Value::default();
        // SAFETY: the transaction and its caller are open, and in no other call; `found` is of
        // this frame.
        let code = unsafe { raw::clsm_transaction_get(self.place(), key, &raw mut found) };
        (code, found)
    }

    /// Reads as many keys as there are values.
    pub(crate) fn get_all(&mut self, keys: &[u64], values: &mut [raw::Value]) -> Code {
        assert_eq!(keys.len(), values.len());
        let (from, into) = (keys.as_ptr(), values.as_mut_ptr());
        // SAFETY: as in `get`, and both are slices of so many.
        unsafe { raw::clsm_transaction_get_many(self.place(), from, keys.len(), into) }
    }

    /// Reads the first rows of the range, or the last ones by falling key, as many as the slice
    /// has, and answers where it ends.
    pub(crate) fn page(
        &mut self,
        keys: Keys,
        falls: bool,
        rows: &mut [raw::Row],
    ) -> (Code, raw::PageEnd) {
        let mut end = raw::PageEnd::default();
        let (into, room) = (rows.as_mut_ptr(), rows.len());
        let Keys { first, last } = keys;
        let (call, from, to): (Page<raw::Transaction>, _, _) = if falls {
            (raw::clsm_transaction_page_down, last, first)
        } else {
            (raw::clsm_transaction_page, first, last)
        };
        // SAFETY: as in `get`, and there is room for so many rows.
        let code = unsafe { call(self.place(), from, to, into, room, &raw mut end) };
        (code, end)
    }

    /// The row of the least key of the range, or of the greatest one.
    pub(crate) fn end(&mut self, keys: Keys, falls: bool) -> (Code, raw::Row) {
        let mut row = raw::Row::default();
        let call: EndOf =
            if falls { raw::clsm_transaction_last } else { raw::clsm_transaction_first };
        // SAFETY: as in `get`, and `row` is of this frame.
        let code = unsafe { call(self.place(), keys.first, keys.last, &raw mut row) };
        (code, row)
    }

    pub(crate) fn count(&mut self, keys: Keys) -> (Code, u64) {
        let mut count = 0;
        let Keys { first, last } = keys;
        // SAFETY: as in `get`, and `count` is of this frame.
        let code =
            unsafe { raw::clsm_transaction_count(self.place(), first, last, &raw mut count) };
        (code, count)
    }

    pub(crate) fn put(&mut self, key: u64, value: &[u64]) -> Code {
        // SAFETY: as in `get`, and the words are one slice.
        unsafe { raw::clsm_transaction_put(self.place(), key, value.as_ptr(), value.len()) }
    }

    pub(crate) fn remove(&mut self, key: u64) -> Code {
        // SAFETY: as in `get`.
        unsafe { raw::clsm_transaction_remove(self.place(), key) }
    }

    pub(crate) fn add(&mut self, key: u64, by: u64) -> (Code, raw::Changed) {
        let mut changed = raw::Changed::default();
        // SAFETY: as in `get`, and `changed` is of this frame.
        let code = unsafe { raw::clsm_transaction_add(self.place(), key, by, &raw mut changed) };
        (code, changed)
    }

    pub(crate) fn commit(&mut self) -> Code {
        // SAFETY: as in `get`.
        unsafe { raw::clsm_transaction_commit(self.place()) }
    }
}

impl Drop for OpenTransaction<'_> {
    fn drop(&mut self) {
        // SAFETY: the transaction is open, and nothing uses it after its drop.
        unsafe { raw::clsm_transaction_close(self.place()) };
    }
}

// ---- walks

/// A walk, which its caller outlives: it borrows that.
///
/// The library uses the caller in each call of the walk, and wants both in one call at a time.
/// They are: what borrows a handle, which is not `Sync`, stays in the thread that has the handle,
/// and no call runs code of others. A walk that is forgotten keeps its memory, and is used no
/// more.
pub(crate) struct OpenWalk<'a> {
    at: Place<raw::Walk>,
    caller: PhantomData<&'a Handle<raw::Caller>>,
}

impl OpenWalk<'_> {
    /// The next row, or `None` behind the last one, and so again.
    #[inline]
    pub(crate) fn next(&mut self) -> Option<raw::Row> {
        let mut row = MaybeUninit::uninit();
        // SAFETY: the walk and its caller are open, and in no other call; `row` is of this frame.
        let code = unsafe { raw::clsm_walk_next(self.at.0.as_ptr(), row.as_mut_ptr()) };
        match code {
            // SAFETY: a call that answers so has written the row.
            raw::OK => Some(unsafe { row.assume_init() }),
            raw::DONE => None,
            code => unexpected(code),
        }
    }
}

impl Drop for OpenWalk<'_> {
    fn drop(&mut self) {
        // SAFETY: the walk is open, and nothing uses it after its drop.
        unsafe { raw::clsm_walk_close(self.at.0.as_ptr()) };
    }
}
