//! Batches: what one leaves, what refuses one, and that each read beside threads has all of its
//! writes or none.
use cupolanettle::{Batch, BatchError, Caller, Error, Options, Refused, Store, Time, Value};
use std::sync::atomic::{AtomicUsize, Ordering};
use std::thread;

const EPOCH: u64 = 64;
const KEYS: u64 = 8;
const WRITERS: u64 = 2;
const ROUNDS: u64 = 500;

/// So much later.
fn later(time: Time, by: u64) -> Time {
    (u64::from(time) + by).into()
}

fn small() -> Options {
    Options::new().keys(10_000).epoch(64)
}

fn rows(caller: &Caller) -> Result<Vec<(u64, Value)>, Error> {
    Ok(caller.range(..)?.collect::<Result<_, _>>()?)
}

#[test]
fn writes_are_made_in_their_order() -> Result<(), Error> {
    let store = small().open()?;
    let caller = store.caller()?;
    caller.put(1, 9)?;
    let before = caller.seen();
    let mut batch = Batch::new();
    batch.remove(1).set(2, [20, 21]).set(3, 30).remove(3).set(4, 40).set(4, 41).remove(5);
    let time = caller.batch(&batch)?;
    assert!(time >= before);
    assert_eq!((caller.time(), caller.seen()), (time, later(time, 7)));
    assert_eq!(rows(&caller)?, [(2, [20, 21].into()), (4, 41.into())]);
    assert_eq!(format!("{:?}", Batch::new().set(1, 2).remove(3)), "[(1, Some([2])), (3, None)]");
    Ok(())
}

#[test]
fn one_may_be_made_again() -> Result<(), Error> {
    let store = small().open()?;
    let caller = store.caller()?;
    let mut batch = Batch::new();
    batch.set(1, 10).set(2, 20);
    let first = caller.batch(&batch)?;
    let second = caller.batch(&batch)?;
    assert!(second >= later(first, 2));
    batch.clear();
    batch.remove(1);
    caller.batch(&batch.clone())?;
    assert_eq!(rows(&caller)?, [(2, 20.into())]);
    Ok(())
}

#[test]
fn rows_make_one() -> Result<(), Error> {
    let caller = small().open()?.caller()?;
    let mut batch: Batch = (0..5).map(|key| (key, 10 * key)).collect();
    batch.extend([(1, [1, 1]), (5, [5, 5])]);
    batch.extend([(0, None), (6, Some(Value::from(60)))]);
    batch.remove(2).extend(Vec::<(u64, Value)>::new());
    assert_eq!(batch.len(), 10);
    caller.batch(&batch)?;
    let left = rows(&caller)?;
    let wanted = [(1, [1, 1].into()), (3, 30.into()), (4, 40.into()), (5, [5, 5].into())];
    assert_eq!((&left[..4], &left[4..]), (&wanted[..], &[(6, 60.into())][..]));
    // The rows of one store are a batch for another.
    let other = small().open()?.caller()?;
    other.batch(&left.iter().copied().collect())?;
    assert_eq!(rows(&other)?, left);
    other.batch(&left.iter().map(|row| (row.0, None::<Value>)).collect())?;
    assert!(other.is_empty());
    assert!(Batch::from_iter(Vec::<(u64, u64)>::new()).is_empty());
    Ok(())
}

#[test]
fn empty_and_long_ones_are_refused() -> Result<(), Error> {
    let store = small().open()?;
    let caller = store.caller()?;
    let mut batch = Batch::new();
    assert_eq!(caller.batch(&batch), Err(BatchError::Empty));
    for key in 0..=EPOCH {
        batch.set(key, key);
    }
    assert_eq!(caller.batch(&batch), Err(BatchError::TooLong));
    assert_eq!((caller.time(), caller.seen(), caller.count(..)), (Time::ZERO, Time::ZERO, 0));
    assert_eq!(Error::from(BatchError::TooLong), Error::Batch(BatchError::TooLong));
    assert_eq!(Error::from(BatchError::Refused(Refused::Worn)), Error::Refused(Refused::Worn));
    assert_eq!(BatchError::Empty.to_string(), "the batch has no write");
    Ok(())
}

/// Of each length, most of which find the epoch with less room than they need.
fn lengths(options: Options) -> Result<(), Error> {
    let store = options.open()?;
    let caller = store.caller()?;
    for length in 1..=EPOCH {
        let mut batch = Batch::new();
        for key in 0..length {
            batch.set(key, length);
        }
        caller.batch(&batch)?;
        caller.put(1_000 + length, length)?;
        assert!((0..length).all(|key| caller.get(key) == Some(length.into())));
    }
    assert_eq!(caller.count(..), 2 * EPOCH);
    Ok(())
}

#[test]
fn lengths_where_a_thread_merges() -> Result<(), Error> {
    lengths(small())
}

#[test]
fn lengths_where_calls_merge() -> Result<(), Error> {
    lengths(small().merge_in_calls())
}

#[test]
fn versions_full_then_room() -> Result<(), Error> {
    for options in [Options::new(), Options::new().merge_in_calls()] {
        let store = options.keys(2).epoch(4).open()?;
        let caller = store.caller()?;
        let snapshot = caller.snapshot()?;
        let both = |word: u64| caller.batch(Batch::new().set(1, word).set(2, word));
        let refused = (0..1_000).find_map(|word| both(word).err());
        assert_eq!(refused, Some(BatchError::Refused(Refused::OwnSnapshot)));
        assert_eq!(caller.get(1), caller.get(2));
        drop(snapshot);
        for word in 0..100 {
            both(word)?;
        }
        assert_eq!(caller.get(2), Some(99.into()));
    }
    Ok(())
}

// ---- in threads

/// Gives all keys one word, or removes them all.
fn write_alike(store: &Store, own: u64) -> Result<(), Error> {
    let caller = store.caller()?;
    for round in 0..ROUNDS {
        let word = round * WRITERS + own;
        let mut batch = Batch::new();
        for key in 0..KEYS {
            if word % 7 == 0 {
                batch.remove(key);
            } else {
                batch.set(key, word);
            }
        }
        caller.batch(&batch)?;
        caller.add(KEYS, 1)?;
    }
    Ok(())
}

/// All keys or none, and one value.
fn assert_alike(values: &[Value]) {
    assert!(values.is_empty() || values.len() as u64 == KEYS);
    assert!(values.iter().all(|value| *value == values[0]));
}

fn read_alike(store: &Store) -> Result<(), Error> {
    let caller = store.caller()?;
    let page = caller.page(..KEYS, 100)?;
    assert_alike(&page.rows.iter().map(|row| row.1).collect::<Vec<_>>());
    let read = caller.range(..KEYS)?.map(|row| Ok(row?.1)).collect::<Result<Vec<_>, Error>>()?;
    assert_alike(&read);
    let snapshot = store.snapshot()?;
    assert_alike(&(0..KEYS).rev().filter_map(|key| snapshot.get(key)).collect::<Vec<_>>());
    assert!([0, KEYS].contains(&caller.count(..KEYS)));
    Ok(())
}

#[test]
fn threads_share_one() -> Result<(), Error> {
    let store = small().open()?;
    let mut batch = Batch::new();
    batch.set(1, 10).remove(2).set(3, [30, 31]);
    thread::scope(|scope| {
        for _ in 0..WRITERS {
            scope.spawn(|| {
                let caller = store.caller().unwrap();
                for _ in 0..ROUNDS {
                    caller.batch(&batch).unwrap();
                }
            });
        }
    });
    assert_eq!(rows(&store.caller()?)?, [(1, 10.into()), (3, [30, 31].into())]);
    Ok(())
}

fn beside_readers(options: Options) -> Result<(), Error> {
    let store = options.open()?;
    let writing = AtomicUsize::new(2);
    thread::scope(|scope| {
        for own in 0..WRITERS {
            let (store, writing) = (&store, &writing);
            scope.spawn(move || {
                write_alike(store, own).unwrap();
                writing.fetch_sub(1, Ordering::SeqCst);
            });
        }
        for _ in 0..2 {
            scope.spawn(|| {
                while writing.load(Ordering::SeqCst) > 0 {
                    read_alike(&store).unwrap();
                }
            });
        }
    });
    read_alike(&store)?;
    assert_eq!(store.snapshot()?.get(KEYS), Some((WRITERS * ROUNDS).into()));
    Ok(())
}

#[test]
fn beside_readers_where_a_thread_merges() -> Result<(), Error> {
    beside_readers(small())
}

#[test]
fn beside_readers_where_calls_merge() -> Result<(), Error> {
    beside_readers(small().merge_in_calls())
}
