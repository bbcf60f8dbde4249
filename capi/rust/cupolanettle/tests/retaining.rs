//! What `retain` removes, and what it leaves.
use cupolanettle::{Caller, Error, Options, Refused, RetainError, Store};
use std::panic::{catch_unwind, resume_unwind, AssertUnwindSafe};
use std::sync::atomic::{AtomicBool, Ordering};
use std::thread;

fn small() -> Result<Store, Error> {
    Ok(Options::new().keys(1_000).epoch(64).open()?)
}

fn fill(caller: &Caller, keys: u64) -> Result<(), Error> {
    for key in 0..keys {
        caller.put(key, key % 10)?;
    }
    Ok(())
}

#[test]
fn it_asks_for_each_row_of_the_range() -> Result<(), Error> {
    let caller = small()?.caller()?;
    fill(&caller, 500)?;
    let mut asked = Vec::new();
    let removed = caller.retain(100..=299, |key, value| {
        asked.push((key, value));
        value[0] != 7
    })?;
    assert!(asked.into_iter().eq((100..300).map(|key| (key, (key % 10).into()))));
    assert_eq!((removed, caller.count(..), caller.count(100..300)), (20, 480, 180));
    assert_eq!((caller.get(107), caller.get(97)), (None, Some(7.into())));
    assert_eq!(caller.retain(100..=299, |_, value| value[0] != 7)?, 0);
    let (high, low) = (2, 1);
    assert_eq!(caller.retain(high..low, |_, _| unreachable!())?, 0);
    assert_eq!(caller.retain(.., |_, _| true)?, 0);
    assert_eq!(caller.retain(.., |_, _| false)?, 480);
    assert_eq!(caller.count(..), 0);
    Ok(())
}

/// A value that another caller writes between the question and the removal stays.
#[test]
fn a_value_that_was_written_meanwhile_stays() -> Result<(), Error> {
    let store = small()?;
    let (caller, other) = (store.caller()?, store.caller()?);
    fill(&caller, 5)?;
    let mut asked = 0;
    let removed = caller.retain(.., |key, _| {
        asked += 1;
        match key {
            1 => _ = other.put(1, 1_000).unwrap(),
            2 => _ = other.remove(2).unwrap(),
            3 => {
                other.remove(3).unwrap();
                other.put(3, [3, 3]).unwrap();
            }
            _ => {}
        }
        false
    })?;
    assert_eq!((removed, asked), (2, 5));
    assert_eq!(caller.get(1), Some(1_000.into()));
    assert_eq!(caller.get(3), Some([3, 3].into()));
    assert_eq!(caller.count(..), 2);
    Ok(())
}

/// What counts is the value: one that was written again is removed.
#[test]
fn a_value_that_was_written_again_is_removed() -> Result<(), Error> {
    let caller = small()?.caller()?;
    fill(&caller, 5)?;
    let removed = caller.retain(.., |key, value| {
        caller.remove(key).unwrap();
        caller.put(key, value).unwrap();
        false
    })?;
    assert_eq!((removed, caller.count(..)), (5, 0));
    Ok(())
}

#[test]
fn the_function_may_call_its_caller() -> Result<(), Error> {
    let caller = small()?.caller()?;
    fill(&caller, 200)?;
    let removed = caller.retain(..100, |key, value| {
        assert_eq!(caller.get(key), Some(value));
        caller.add(1_000, value[0]).unwrap();
        caller.retain(100 + key..=100 + key, |_, _| false).unwrap();
        caller.walk(..).unwrap().count() > 150
    })?;
    // One of two is removed each time, then both.
    assert_eq!((caller.count(..100), caller.count(100..200)), (50, 0));
    assert_eq!((removed, caller.get(1_000)), (50, Some(450.into())));
    Ok(())
}

#[test]
fn a_function_that_panics_loses_no_handle() -> Result<(), Error> {
    let store = small()?;
    let caller = store.caller()?;
    fill(&caller, 100)?;
    for round in 0..100 {
        let came = catch_unwind(AssertUnwindSafe(|| {
            caller
                .retain(.., |key, _| if key == round { resume_unwind(Box::new(key)) } else { true })
        }));
        assert_eq!(came.unwrap_err().downcast_ref(), Some(&round));
    }
    let came = catch_unwind(AssertUnwindSafe(|| {
        caller.retain(.., |key, _| if key == 40 { resume_unwind(Box::new(())) } else { false })
    }));
    assert!(came.is_err());
    assert_eq!((caller.count(..), caller.count(..40)), (60, 0));
    caller.put(1, 10)?;
    let now = store.stats();
    assert_eq!((now.callers, now.snapshots, now.scans), (1, 0, 0));
    Ok(())
}

#[test]
fn a_removal_that_is_refused_ends_it() -> Result<(), Error> {
    for options in [Options::new(), Options::new().merge_in_calls()] {
        let store = options.keys(200).epoch(4).open()?;
        let caller = store.caller()?;
        fill(&caller, 200)?;
        let snapshot = caller.snapshot()?;
        for word in 0..150 {
            caller.put(0, word)?;
        }
        let refused = caller.retain(.., |_, _| false).unwrap_err();
        assert_eq!(refused, RetainError::Refused(Refused::OwnSnapshot));
        let left = caller.count(..);
        assert!(left > 0 && left < 200 && snapshot.count(..) == 200);
        drop(snapshot);
        assert_eq!(caller.retain(.., |_, _| false)?, left);
    }
    Ok(())
}

/// Where other threads add, no addition is lost: each removal took a counter of three.
#[test]
fn beside_threads_that_add() -> Result<(), Error> {
    const THREADS: u64 = 2;
    const ADDITIONS: u64 = 10_000;
    for options in [Options::new(), Options::new().merge_in_calls()] {
        let store = options.keys(1_000).epoch(64).open()?;
        let is_over = AtomicBool::new(false);
        let removed = thread::scope(|scope| {
            let removing = scope.spawn(|| -> Result<u64, Error> {
                let caller = store.caller()?;
                let mut removed = 0;
                while !is_over.load(Ordering::SeqCst) {
                    removed += caller.retain(.., |_, count| count[0] != 3)?;
                }
                Ok(removed)
            });
            let adding: Vec<_> = (0..THREADS)
                .map(|_| {
                    scope.spawn(|| -> Result<(), Error> {
                        let caller = store.caller()?;
                        (0..ADDITIONS)
                            .try_for_each(|round| caller.add(round % 100, 1).map(drop))?;
                        Ok(())
                    })
                })
                .collect();
            let added: Result<(), Error> =
                adding.into_iter().try_for_each(|thread| thread.join().unwrap());
            is_over.store(true, Ordering::SeqCst);
            added.and(removing.join().unwrap())
        })?;
        let rows = store.snapshot()?.range(..).collect::<Result<Vec<_>, _>>()?;
        let left: u64 = rows.iter().map(|(_, count)| count[0]).sum();
        assert_eq!(3 * removed + left, THREADS * ADDITIONS);
    }
    Ok(())
}
