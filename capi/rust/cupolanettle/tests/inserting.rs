//! `get_or_insert_with`: one value for all who ask for a key.
use cupolanettle::{Caller, Error, Options, Refused, Store, Value};
use std::panic::{catch_unwind, resume_unwind, AssertUnwindSafe};
use std::sync::atomic::{AtomicU64, Ordering};
use std::sync::Barrier;
use std::thread;

const THREADS: u64 = 4;
const KEYS: u64 = 500;

fn small() -> Result<Store, Error> {
    Ok(Options::new().keys(1_000).epoch(64).open()?)
}

#[test]
fn the_function_is_asked_where_there_is_no_value() -> Result<(), Error> {
    let caller = small()?.caller()?;
    assert_eq!(caller.get_or_insert_with(1, || [10, 11])?, [10, 11].into());
    let written = caller.time();
    assert_eq!(caller.get_or_insert_with(1, || -> u64 { unreachable!() })?, [10, 11].into());
    assert!(caller.time() > written);
    caller.remove(1)?;
    assert_eq!(caller.get_or_insert_with(1, || 12)?, 12.into());
    assert_eq!((caller.get(1), caller.count(..)), (Some(12.into()), 1));
    Ok(())
}

#[test]
fn the_function_is_asked_in_vain_where_another_write_came_first() -> Result<(), Error> {
    let store = small()?;
    let (caller, other) = (store.caller()?, store.caller()?);
    let found = caller.get_or_insert_with(1, || {
        other.put(1, [20, 21]).unwrap();
        10
    })?;
    assert_eq!((found, caller.get(1)), ([20, 21].into(), Some([20, 21].into())));
    // It may be the caller itself that wrote it.
    let found = caller.get_or_insert_with(2, || {
        caller.put(2, 20).unwrap();
        10
    })?;
    assert_eq!((found, caller.get(2)), (20.into(), Some(20.into())));
    Ok(())
}

#[test]
fn a_function_that_panics_writes_nothing() -> Result<(), Error> {
    let caller = small()?.caller()?;
    let insert =
        || caller.get_or_insert_with(1, || -> Value { resume_unwind(Box::new("no value")) });
    assert!(catch_unwind(AssertUnwindSafe(insert)).is_err());
    assert!(!caller.contains_key(1));
    assert_eq!(caller.get_or_insert_with(1, || 10)?, 10.into());
    Ok(())
}

#[test]
fn it_is_refused_as_a_write() -> Result<(), Error> {
    let caller = Options::new().keys(16).epoch(4).open()?.caller()?;
    caller.put(1, 10)?;
    let snapshot = caller.snapshot()?;
    let refused = (0..500).find_map(|word| caller.put(2, word).err());
    assert_eq!(refused, Some(Refused::OwnSnapshot));
    assert_eq!(caller.get_or_insert_with(1, || 11)?, 10.into());
    assert_eq!(caller.get_or_insert_with(3, || 30), Err(Refused::OwnSnapshot));
    drop(snapshot);
    assert_eq!(caller.get_or_insert_with(3, || 30)?, 30.into());
    Ok(())
}

/// Asks for all keys, and answers what was found, in their order.
fn ask(caller: &Caller, own: u64, asked: &AtomicU64) -> Result<Vec<Value>, Refused> {
    let make = |key| {
        asked.fetch_add(1, Ordering::SeqCst);
        [key, own]
    };
    (0..KEYS).map(|key| caller.get_or_insert_with(key, || make(key))).collect()
}

#[test]
fn all_threads_get_one_value() -> Result<(), Error> {
    let store = small()?;
    let callers = (0..THREADS).map(|_| store.caller()).collect::<Result<Vec<_>, _>>()?;
    let (asked, all_are_here) = (AtomicU64::new(0), Barrier::new(callers.len()));
    let found = thread::scope(|scope| {
        let (asked, all_are_here) = (&asked, &all_are_here);
        let ask = |(caller, own): (Caller, u64)| {
            scope.spawn(move || {
                all_are_here.wait();
                ask(&caller, own, asked)
            })
        };
        let asking: Vec<_> = callers.into_iter().zip(0..).map(ask).collect();
        let found = asking.into_iter().map(|thread| thread.join().unwrap());
        found.collect::<Result<Vec<_>, _>>()
    })?;
    assert!(found.iter().all(|values| *values == found[0]));
    for (key, value) in (0..).zip(&found[0]) {
        assert_eq!(value[0], key);
    }
    let rows = store.snapshot()?.into_iter().map(|row| row.map(|row| row.1));
    assert_eq!(rows.collect::<Result<Vec<_>, _>>()?, found[0]);
    assert!((KEYS..=THREADS * KEYS).contains(&asked.into_inner()));
    Ok(())
}
