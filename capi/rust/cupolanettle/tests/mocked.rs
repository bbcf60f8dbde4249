//! What only a core shows that refuses on demand: `capi/tests/mock_core.c`, over which
//! `capi/rust/check` builds the library in place of the proved one.
#![cfg(clsm_mock)]

use cupolanettle::{
    Batch, BatchError, ChangeError, Error, OpenError, Options, Refused, Time, TryError,
};
use std::os::raw::c_uint;
use std::sync::{Mutex, MutexGuard, PoisonError};

/// The calls of `mock_core.h`.
const WRITE: c_uint = 0;
const BATCH: c_uint = 1;
const READ: c_uint = 2;
const FREEZE: c_uint = 4;
const SWEEP: c_uint = 5;

const HEADER: &str = include_str!("../../../tests/mock_core.h");

/// Codes of the core.
const BUSY: u32 = 9;
const RACED: u32 = 10;
const OVERTAKEN: u32 = 11;
const PINNED: u32 = 12;
const MEMORY: u32 = 16;
const WORN: u32 = 19;

extern "C" {
    fn mock_core_refuse(call: c_uint, code: u32, times: c_uint);
    fn mock_core_run_back(call: c_uint, by: u64, times: c_uint);
    fn mock_core_count(call: c_uint) -> c_uint;
    fn mock_core_grow_handles(bytes: c_uint);
}

/// The mock core, which is one for the whole process: one test has it at a time.
struct Mock {
    _alone: MutexGuard<'static, ()>,
}

#[allow(clippy::unused_self)] // who has it makes its calls
impl Mock {
    fn take() -> Mock {
        static ALONE: Mutex<()> = Mutex::new(());
        Mock { _alone: ALONE.lock().unwrap_or_else(PoisonError::into_inner) }
    }

    /// The next so many of these calls answer the code, and do nothing.
    fn refuse(&self, call: c_uint, code: u32, times: c_uint) {
        // SAFETY: as all calls of the mock, any thread may make it.
        unsafe { mock_core_refuse(call, code, times) };
    }

    /// The next so many of these calls read at a time that is so much lower.
    fn run_back(&self, call: c_uint, by: u64, times: c_uint) {
        // SAFETY: as in `refuse`.
        unsafe { mock_core_run_back(call, by, times) };
    }

    /// How many of these calls were made.
    fn count(&self, call: c_uint) -> c_uint {
        // SAFETY: as in `refuse`.
        unsafe { mock_core_count(call) }
    }

    /// Handles take so many bytes more than is declared.
    fn grow_handles(&self, bytes: c_uint) {
        // SAFETY: as in `refuse`, and no store is open.
        unsafe { mock_core_grow_handles(bytes) };
    }
}

impl Drop for Mock {
    fn drop(&mut self) {
        for call in [WRITE, BATCH, READ, FREEZE, SWEEP] {
            self.refuse(call, 0, 0);
            self.run_back(call, 0, 0);
        }
        self.grow_handles(0);
    }
}

#[test]
fn the_calls_are_those_of_the_header() {
    let calls = HEADER.split("enum mock_call {").nth(1).and_then(|rest| rest.split('}').next());
    let calls: Vec<_> = calls.unwrap().split(',').map(str::trim).collect();
    let of = |name: &str| calls.iter().position(|call| *call == name).unwrap();
    let named = ["MOCK_WRITE", "MOCK_BATCH", "MOCK_READ", "MOCK_FREEZE", "MOCK_SWEEP"].map(of);
    assert_eq!(named, [WRITE, BATCH, READ, FREEZE, SWEEP].map(|call| call as usize));
}

#[test]
fn tries_tell_why_they_were_lost() -> Result<(), Error> {
    let mock = Mock::take();
    let caller = Options::new().keys(100).merge_in_calls().open()?.caller()?;
    caller.put(1, 10)?;
    let errors =
        [(BUSY, TryError::Busy), (RACED, TryError::Raced), (OVERTAKEN, TryError::Overtaken)];
    for (code, error) in errors {
        mock.refuse(WRITE, code, 2);
        assert_eq!(caller.try_put(1, 11), Err(error));
        assert_eq!(caller.try_remove(1), Err(error));
        assert_eq!((caller.time(), caller.seen()), (Time::ZERO, Time::from(1)));
        assert!(!error.to_string().is_empty());
    }
    Ok(())
}

#[test]
fn writes_and_changes_that_are_lost_are_made_again() -> Result<(), Error> {
    let mock = Mock::take();
    let caller = Options::new().keys(100).merge_in_calls().open()?.caller()?;
    for code in [BUSY, RACED, OVERTAKEN] {
        let before = mock.count(WRITE);
        mock.refuse(WRITE, code, 100);
        caller.put(1, 1)?;
        mock.refuse(WRITE, code, 100);
        caller.add(1, 1)?;
        // The function is asked again where the value changed, and there alone.
        let mut asked = 0;
        mock.refuse(WRITE, code, 100);
        let changed = caller.update(1, |old| {
            asked += 1;
            old.map(|old| old[0] + 1)
        })?;
        assert_eq!((asked, changed.after), (1, Some(3.into())));
        let batches = mock.count(BATCH);
        mock.refuse(BATCH, code, 100);
        let time = caller.batch(Batch::new().set(1, 10).remove(2))?;
        assert_eq!((mock.count(WRITE) - before, mock.count(BATCH) - batches), (303, 101));
        assert_eq!((caller.time(), caller.seen()), (time, Time::from(u64::from(time) + 2)));
    }
    Ok(())
}

#[test]
fn a_batch_for_which_memory_ran_out_may_be_made_again() -> Result<(), Error> {
    let mock = Mock::take();
    let caller = Options::new().keys(100).merge_in_calls().open()?.caller()?;
    let mut batch = Batch::new();
    batch.set(1, 10).set(2, 20);
    mock.refuse(BATCH, MEMORY, 1);
    assert_eq!(caller.batch(&batch), Err(BatchError::Memory));
    assert_eq!(caller.count(..), 0);
    caller.batch(&batch)?;
    assert_eq!(caller.count(..), 2);
    Ok(())
}

#[test]
fn a_value_that_is_kept_is_a_read() -> Result<(), Error> {
    let mock = Mock::take();
    let caller = Options::new().keys(100).merge_in_calls().open()?.caller()?;
    for key in 0..3 {
        caller.put(key, [key, key])?;
    }
    let before = mock.count(READ);
    mock.run_back(READ, 2, 100);
    let Err(ChangeError::Kept(kept)) = caller.add(2, 1) else { panic!("it is no read") };
    assert_eq!((kept.time, kept.value), (Time::from(3), Some([2, 2].into())));
    assert_eq!(mock.count(READ) - before, 101);
    assert_eq!((caller.time(), caller.seen()), (Time::from(3), Time::from(3)));
    Ok(())
}

#[test]
fn a_sweep_goes_on_until_no_read_is_in_its_way() -> Result<(), Error> {
    let mock = Mock::take();
    let store = Options::new().keys(100).epoch(4).merge_in_calls().open()?;
    let caller = store.caller()?;
    // The fifth write freezes the epoch of the first four, and a read is in the way of the merge.
    mock.refuse(SWEEP, PINNED, 1);
    for key in 0..5 {
        caller.put(key, 10)?;
    }
    let before = mock.count(SWEEP);
    mock.refuse(SWEEP, PINNED, 100);
    mock.refuse(FREEZE, BUSY, 100);
    store.sweep()?;
    assert_eq!(mock.count(SWEEP) - before, 102);
    // Nothing is left to merge.
    store.sweep()?;
    assert_eq!(mock.count(SWEEP) - before, 102);
    Ok(())
}

#[test]
fn the_end_of_times_refuses_writes() -> Result<(), Error> {
    let mock = Mock::take();
    for options in [Options::new(), Options::new().merge_in_calls()] {
        let store = options.keys(100).epoch(4).open()?;
        let caller = store.caller()?;
        mock.refuse(FREEZE, WORN, c_uint::MAX);
        assert_eq!((0..9).find_map(|word| caller.put(1, word).err()), Some(Refused::Worn));
        assert_eq!(caller.remove(1), Err(Refused::Worn));
        assert_eq!(caller.add(1, 1), Err(Refused::Worn.into()));
        assert_eq!(caller.batch(Batch::new().remove(1)), Err(Refused::Worn.into()));
        assert_eq!(caller.try_remove(1), Err(Refused::Worn.into()));
        assert_eq!(store.sweep(), Err(Refused::Worn));
        assert_eq!(caller.get(1), Some(3.into()));
        mock.refuse(FREEZE, 0, 0);
        caller.put(1, 9)?;
    }
    Ok(())
}

#[test]
fn a_core_of_another_build_is_refused() -> Result<(), Error> {
    let mock = Mock::take();
    mock.grow_handles(1_000);
    assert_eq!(Options::new().open().err(), Some(OpenError::Build));
    mock.grow_handles(0);
    Options::new().open()?;
    Ok(())
}
