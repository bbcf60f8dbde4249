//! Rows that are taken out, from either end of a range.
use cupolanettle::{Error, Options, RetainError, Value};
use std::ops::Bound::{Excluded, Unbounded};
use std::thread;

const ROWS: u64 = 300;

#[test]
fn from_either_end() -> Result<(), Error> {
    let store = Options::new().keys(1_000).epoch(64).open()?;
    let caller = store.caller()?;
    assert_eq!((caller.pop_first(..)?, caller.pop_last(..)?), (None, None));
    for key in [0, 3, 5, 8, u64::MAX] {
        caller.put(key, [key, 7])?;
    }
    let row = |key| Some((key, Value::from([key, 7])));
    assert_eq!(caller.pop_first(1..8)?, row(3));
    assert_eq!(caller.pop_last(1..8)?, row(5));
    assert_eq!((caller.pop_first(1..8)?, caller.pop_last(8..8)?), (None, None));
    assert_eq!(caller.pop_first((Excluded(u64::MAX), Unbounded))?, None);
    assert_eq!(caller.pop_last(..)?, row(u64::MAX));
    assert_eq!(caller.pop_first(..)?, row(0));
    assert_eq!(caller.pop_last(8..=8)?, row(8));
    assert!(caller.is_empty());
    Ok(())
}

/// What a thread takes out rises, and each row comes to one thread, also where others come meanwhile.
#[test]
fn threads_take_each_row_once() -> Result<(), Error> {
    let store = Options::new().keys(1_000).epoch(64).open()?;
    let caller = store.caller()?;
    for key in 0..ROWS {
        caller.put(key, key)?;
    }
    let take_all = || -> Result<Vec<u64>, Error> {
        let caller = store.caller()?;
        let mut taken = Vec::new();
        while let Some((key, _)) = caller.pop_first(..)? {
            taken.push(key);
        }
        Ok(taken)
    };
    let mut all = Vec::new();
    thread::scope(|scope| {
        let taking: Vec<_> = (0..3).map(|_| scope.spawn(take_all)).collect();
        for thread in taking {
            let taken = thread.join().expect("no panic")?;
            assert!(taken.windows(2).all(|pair| pair[0] < pair[1]));
            all.extend(taken);
        }
        Ok::<_, Error>(())
    })?;
    all.sort_unstable();
    assert_eq!(all, (0..ROWS).collect::<Vec<_>>());
    Ok(())
}

/// A removal takes room, as any write does.
#[test]
fn without_room_nothing_is_taken() -> Result<(), Error> {
    let store = Options::new().keys(4).epoch(4).open()?;
    let caller = store.caller()?;
    caller.put(7, 70)?;
    let snapshot = caller.snapshot()?;
    while caller.put(7, 70).is_ok() {}
    assert!(matches!(caller.pop_first(..), Err(RetainError::Refused(_))));
    assert!(matches!(caller.pop_last(..), Err(RetainError::Refused(_))));
    drop(snapshot);
    assert_eq!(caller.pop_last(..)?, Some((7, 70.into())));
    Ok(())
}
