//! Whether keys and rows are there, of callers and of snapshots, and all rows of a snapshot.
use cupolanettle::{Caller, Error, Options, Store, Value};

fn small() -> Result<(Store, Caller), Error> {
    let store = Options::new().keys(1_000).epoch(64).open()?;
    let caller = store.caller()?;
    Ok((store, caller))
}

#[test]
fn keys_that_are_there() -> Result<(), Error> {
    let (_store, caller) = small()?;
    let written = [0, 1, 7, u64::MAX - 1, u64::MAX];
    for key in written {
        assert!(!caller.contains_key(key));
        caller.put(key, [key, 0])?;
        assert!(caller.contains_key(key));
    }
    let snapshot = caller.snapshot()?;
    for key in [2, 6, 8, u64::MAX - 2] {
        assert!(!caller.contains_key(key) && !snapshot.contains_key(key));
    }
    caller.remove(7)?;
    assert!(!caller.contains_key(7));
    assert!(written.into_iter().all(|key| snapshot.contains_key(key)));
    Ok(())
}

/// It is a read, which moves the caller's time as a get does.
#[test]
fn a_look_for_a_key_is_a_read() -> Result<(), Error> {
    let (_store, caller) = small()?;
    let written = caller.put(7, 70)?;
    assert!(caller.contains_key(7));
    assert!(caller.time() > written);
    assert_eq!(caller.time(), caller.seen());
    Ok(())
}

#[test]
fn the_first_row() -> Result<(), Error> {
    let (store, caller) = small()?;
    let empty = caller.snapshot()?;
    assert!(caller.is_empty() && empty.is_empty());
    for key in [u64::MAX, 9, 8, 0] {
        caller.put(key, [key, 1])?;
        assert_eq!(caller.first_key_value()?, Some((key, [key, 1].into())));
        assert!(!caller.is_empty());
    }
    store.sweep()?;
    let full = caller.snapshot()?;
    for key in [0, 8, 9, u64::MAX] {
        assert_eq!(caller.first_key_value()?, Some((key, [key, 1].into())));
        caller.remove(key)?;
    }
    assert!(caller.is_empty() && empty.is_empty() && !full.is_empty());
    assert_eq!(caller.first_key_value()?, None);
    assert_eq!(empty.first_key_value()?, None);
    assert_eq!(full.first_key_value()?, Some((0, [0, 1].into())));
    Ok(())
}

#[test]
fn all_rows_of_a_snapshot() -> Result<(), Error> {
    let (_store, caller) = small()?;
    for key in 0..200 {
        caller.put(3 * key, key)?;
    }
    let snapshot = caller.snapshot()?;
    caller.put(1, 1)?;
    let wanted: Vec<_> = (0..200).map(|key| (3 * key, Value::from(key))).collect();
    let mut rows = Vec::new();
    for row in &snapshot {
        rows.push(row?);
    }
    assert_eq!(rows, wanted);
    assert_eq!(snapshot.iter().collect::<Result<Vec<_>, _>>()?, wanted);
    assert_eq!(snapshot.into_iter().collect::<Result<Vec<_>, _>>()?, wanted);
    Ok(())
}

/// An iterator that has a snapshot of its own gives its seat back.
#[test]
fn an_iterator_drops_its_snapshot() -> Result<(), Error> {
    let (store, caller) = small()?;
    caller.put(1, 10)?;
    let mut rows = caller.snapshot()?.into_iter();
    assert_eq!(rows.next(), Some(Ok((1, 10.into()))));
    assert_eq!(store.stats().snapshots, 1);
    drop(rows);
    assert_eq!(store.stats().snapshots, 0);
    Ok(())
}
