//! Many rows at once: the removal of a range, and copies from store to store.
use cupolanettle::{
    Caller, CopyError, Error, NoSeat, Options, Refused, RetainError, Store, TryError, Value,
};
use std::ops::{Bound, RangeBounds};
use std::thread;

/// So many rows are read and written at a time.
const AT_A_TIME: u64 = 64;

fn small() -> Result<Store, Error> {
    Ok(Options::new().keys(2_000).epoch(128).open()?)
}

fn fill(caller: &Caller, keys: u64) -> Result<(), Error> {
    for key in 0..keys {
        caller.put(key, [key, 7])?;
    }
    Ok(())
}

fn rows(caller: &Caller) -> Result<Vec<(u64, Value)>, Error> {
    Ok(caller.range(..)?.collect::<Result<_, _>>()?)
}

// ---- removals

#[test]
fn the_rows_of_the_range_are_removed() -> Result<(), Error> {
    fn check(keys: impl RangeBounds<u64> + Clone) -> Result<(), Error> {
        let caller = small()?.caller()?;
        fill(&caller, 300)?;
        let before = rows(&caller)?;
        let inside = before.iter().filter(|row| keys.contains(&row.0)).count() as u64;
        let outside = before.iter().filter(|row| !keys.contains(&row.0)).copied();
        let outside: Vec<_> = outside.collect();
        assert_eq!(caller.remove_range(keys.clone())?, inside);
        assert_eq!(rows(&caller)?, outside);
        assert_eq!(caller.remove_range(keys)?, 0);
        Ok(())
    }
    check(..)?;
    check(0..1)?;
    check(299..)?;
    check(300..)?;
    check(10..=10)?;
    check((Bound::Excluded(10), Bound::Excluded(11)))?;
    for length in [AT_A_TIME - 1, AT_A_TIME, AT_A_TIME + 1, 2 * AT_A_TIME] {
        check(100..100 + length)?;
        check(..length)?;
    }
    Ok(())
}

/// Batches of 64 are cut where an epoch has fewer writes.
#[test]
fn epochs_that_are_shorter_than_a_page() -> Result<(), Error> {
    for epoch in [4, 5, 63, 64, 65] {
        for options in [Options::new(), Options::new().merge_in_calls()] {
            let store = options.keys(1_000).epoch(epoch).open()?;
            let caller = store.caller()?;
            fill(&caller, 200)?;
            let copy = options.keys(1_000).epoch(epoch).open()?;
            assert_eq!(store.snapshot()?.copy_to(&copy)?, 200);
            assert_eq!(caller.remove_range(10..190)?, 180);
            assert_eq!((caller.clear()?, caller.clear()?), (20, 0));
            assert_eq!(copy.caller()?.clear()?, 200);
        }
    }
    Ok(())
}

/// A key that was read goes, whatever it has by then; one behind that place stays.
#[test]
fn a_removal_beside_a_writer() -> Result<(), Error> {
    const KEYS: u64 = 500;
    let store = small()?;
    let caller = store.caller()?;
    thread::scope(|scope| {
        let store = &store;
        let writing = scope.spawn(move || -> Result<(), Error> {
            let caller = store.caller()?;
            for round in 0..200 {
                for key in (0..KEYS).step_by(7) {
                    caller.put(key, round)?;
                }
            }
            Ok(())
        });
        for _ in 0..20 {
            for key in 0..KEYS {
                caller.put(key, key)?;
            }
            assert_eq!(caller.remove_range(..KEYS)?, KEYS);
            // Nobody else writes these.
            assert!((0..KEYS).filter(|key| key % 7 > 0).all(|key| !caller.contains_key(key)));
        }
        writing.join().unwrap()
    })?;
    caller.clear()?;
    assert!(caller.is_empty());
    Ok(())
}

#[test]
fn a_removal_is_refused_as_a_write() -> Result<(), Error> {
    let store = Options::new().keys(16).epoch(4).merge_in_calls().open()?;
    let caller = store.caller()?;
    fill(&caller, 16)?;
    let snapshot = caller.snapshot()?;
    let refused = (0..500).find_map(|word| caller.put(1, word).err());
    assert_eq!(refused, Some(Refused::OwnSnapshot));
    assert_eq!(caller.clear(), Err(RetainError::Refused(Refused::OwnSnapshot)));
    assert_eq!(caller.remove_range(..0), Ok(0));
    assert_eq!(caller.count(..), 16);
    drop(snapshot);
    assert_eq!(caller.clear(), Ok(16));
    Ok(())
}

/// A store with too many keys takes removals.
#[test]
fn a_full_store_is_cleared() -> Result<(), Error> {
    let caller = Options::new().keys(100).epoch(4).open()?.caller()?;
    let full = (0..1_000).find(|&key| caller.put(key, 0).is_err()).unwrap();
    assert_eq!(caller.put(full, 0), Err(Refused::RunFull));
    assert_eq!(caller.clear()?, full);
    caller.put(full, 0)?;
    Ok(())
}

// ---- copies

#[test]
fn a_copy_has_the_rows_of_its_snapshot() -> Result<(), Error> {
    for keys in [0, 1, AT_A_TIME - 1, AT_A_TIME, AT_A_TIME + 1, 1_000] {
        let store = small()?;
        let caller = store.caller()?;
        fill(&caller, keys)?;
        caller.put(u64::MAX, [1, 2, 3, 4, 5, 6, 7, 8])?;
        let wanted = rows(&caller)?;
        let snapshot = caller.snapshot()?;
        caller.put(3, 1_000)?;
        caller.remove(u64::MAX)?;
        let larger = Options::new().keys(4_000).open()?;
        let other = larger.caller()?;
        other.put(5, 1_000)?;
        other.put(1_000_000, 9)?;
        assert_eq!(snapshot.copy_to(&larger)?, keys + 1);
        assert_eq!(other.remove_range(1_000_000..u64::MAX)?, 1);
        if keys <= 5 {
            other.remove(5)?;
        }
        assert_eq!(rows(&other)?, wanted);
        // Its caller is closed, and it may be copied again.
        assert_eq!(larger.stats().callers, 1);
        assert_eq!(snapshot.copy_to(&larger)?, keys + 1);
    }
    Ok(())
}

#[test]
fn a_copy_of_a_store_that_is_written() -> Result<(), Error> {
    const KEYS: u64 = 300;
    let store = Options::new().keys(1_000).versions(1_000_000).open()?;
    let caller = store.caller()?;
    for key in 0..KEYS {
        caller.put(key, 0)?;
    }
    thread::scope(|scope| {
        let store = &store;
        let writing = scope.spawn(move || -> Result<(), Error> {
            let caller = store.caller()?;
            for round in 1..200 {
                let mut batch = cupolanettle::Batch::new();
                batch.extend((0..KEYS).map(|key| (key, round)));
                caller.batch(&batch)?;
            }
            Ok(())
        });
        for _ in 0..10 {
            let copy = small()?;
            assert_eq!(store.snapshot()?.copy_to(&copy)?, KEYS);
            let copied = rows(&copy.caller()?)?;
            assert!(copied.iter().all(|row| row.1 == copied[0].1));
        }
        writing.join().unwrap()
    })
}

#[test]
fn a_copy_is_refused() -> Result<(), Error> {
    let store = small()?;
    let caller = store.caller()?;
    fill(&caller, 1_000)?;
    let too_small = Options::new().keys(10).epoch(4).open()?;
    let came = caller.snapshot()?.copy_to(&too_small);
    assert_eq!(came, Err(CopyError::Refused(Refused::RunFull)));
    // What came before is written.
    let copied = rows(&too_small.caller()?)?;
    assert_eq!(copied, rows(&caller)?[..copied.len()]);
    assert!(copied.len() >= 10);
    let pool = too_small.pool(64)?;
    assert_eq!(caller.snapshot()?.copy_to(&too_small), Err(CopyError::NoSeat));
    assert_eq!(Error::from(CopyError::NoSeat), Error::NoSeat(NoSeat));
    drop(pool);
    let came = caller.try_put(0, 0);
    assert!(!matches!(came, Err(TryError::Refused(_))));
    Ok(())
}

/// A store may be copied to itself: rows that were written since are as in the snapshot again.
#[test]
fn a_copy_to_the_same_store() -> Result<(), Error> {
    let store = small()?;
    let caller = store.caller()?;
    fill(&caller, 100)?;
    let before = rows(&caller)?;
    let snapshot = caller.snapshot()?;
    caller.remove_range(10..)?;
    caller.put(3, 1_000)?;
    assert_eq!(snapshot.copy_to(&store)?, 100);
    assert_eq!(rows(&caller)?, before);
    Ok(())
}
