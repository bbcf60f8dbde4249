//! Walks: loops that write as they read, and what a walk tells of what is written meanwhile.
use cupolanettle::{Batch, Caller, Error, NoSeat, Options, Refused, Store, Value};
use std::sync::atomic::{AtomicBool, Ordering};
use std::{mem, thread};

/// So many rows are read at a time.
const AT_A_TIME: u64 = 64;

fn small() -> Result<Store, Error> {
    Ok(Options::new().keys(1_000).epoch(64).open()?)
}

/// A caller of a store that has each of these keys as its own value.
fn filled(keys: impl Iterator<Item = u64>) -> Result<Caller, Error> {
    let caller = small()?.caller()?;
    for key in keys {
        caller.put(key, key)?;
    }
    Ok(caller)
}

fn keys_of(caller: &Caller) -> Result<Vec<u64>, Error> {
    Ok(caller.walk(..)?.map(|row| row.map(|(key, _)| key)).collect::<Result<_, _>>()?)
}

// ---- loops that write as they read

/// Each row is written once, however often the store merges meanwhile, and no write is refused.
#[test]
fn a_loop_over_all_rows_that_writes_them() -> Result<(), Error> {
    const KEYS: u64 = 1_000;
    for options in [Options::new(), Options::new().merge_in_calls()] {
        let store = options.keys(1_000).epoch(4).open()?;
        let caller = store.caller()?;
        for key in 0..KEYS {
            caller.put(key, 0)?;
        }
        for round in 0..10 {
            for row in caller.walk(..)? {
                let (key, value) = row?;
                assert_eq!(value, Value::from(round));
                caller.put(key, value[0] + 1)?;
            }
        }
        let rows = caller.range(..)?.collect::<Result<Vec<_>, _>>()?;
        assert!(rows.into_iter().eq((0..KEYS).map(|key| (key, 10.into()))));
        assert_eq!(store.stats().versions_full, 0);
    }
    Ok(())
}

/// Over a snapshot the same loop is refused once it has written more than there is room for.
#[test]
fn the_same_loop_over_a_snapshot() -> Result<(), Error> {
    let store = Options::new().keys(100).epoch(4).open()?;
    let caller = store.caller()?;
    for key in 0..100 {
        caller.put(key, key)?;
    }
    let write = |key: u64, value: Value| (0..4).try_for_each(|_| caller.put(key, value).map(drop));
    for row in caller.walk(..)? {
        let (key, value) = row?;
        write(key, value)?;
    }
    let refused = caller.range(..)?.flatten().find_map(|(key, value)| write(key, value).err());
    assert_eq!(refused, Some(Refused::OwnSnapshot));
    Ok(())
}

#[test]
fn a_loop_that_removes_what_it_reads() -> Result<(), Error> {
    let caller = filled(0..500)?;
    for row in caller.walk(100..)? {
        caller.remove(row?.0)?;
    }
    assert!(keys_of(&caller)?.into_iter().eq(0..100));
    Ok(())
}

/// All calls of the caller go on beside its walks, of which there may be several.
#[test]
fn other_calls_go_on_beside_a_walk() -> Result<(), Error> {
    let caller = filled(0..200)?;
    let mut one = caller.walk(..)?;
    let snapshot = caller.snapshot()?;
    let mut other = caller.walk(100..)?;
    assert_eq!(other.next(), Some(Ok((100, 100.into()))));
    for key in 0..100 {
        assert_eq!(one.next().transpose()?.map(|row| row.0), Some(key));
        caller.batch(Batch::new().set(key, 1_000).remove(key + 100))?;
        caller.add(key, 1)?;
        assert_eq!((caller.get(key), caller.get(key + 100)), (Some(1_001.into()), None));
        caller.range(key..)?.next().transpose()?;
        if key + 1 < AT_A_TIME {
            assert_eq!(other.next(), Some(Ok((key + 101, (key + 101).into()))));
        }
    }
    assert_eq!((other.count(), snapshot.count(..)), (0, 200));
    Ok(())
}

// ---- what it tells

#[test]
fn rows_of_all_kinds_of_ranges() -> Result<(), Error> {
    use std::ops::Bound::{Excluded, Unbounded};
    let caller = filled([0, 1, 2, u64::MAX - 1, u64::MAX].into_iter())?;
    assert_eq!(caller.walk(..)?.count(), 5);
    assert_eq!(caller.walk(1..)?.count(), 4);
    assert_eq!(caller.walk(..=u64::MAX)?.count(), 5);
    assert_eq!(caller.walk(..u64::MAX)?.count(), 4);
    assert_eq!(caller.walk(1..1)?.count(), 0);
    assert_eq!(caller.walk((Excluded(u64::MAX), Unbounded))?.count(), 0);
    let (high, low) = (2, 1);
    assert_eq!(caller.walk(high..=low)?.count(), 0);
    let mut rows = caller.walk(u64::MAX..)?;
    assert_eq!(rows.next(), Some(Ok((u64::MAX, u64::MAX.into()))));
    assert_eq!((rows.next(), rows.next()), (None, None));
    Ok(())
}

/// As many rows as are read at a time, one less, one more, and so on.
#[test]
fn any_number_of_rows() -> Result<(), Error> {
    let caller = small()?.caller()?;
    for count in 0..3 * AT_A_TIME + 2 {
        assert!(keys_of(&caller)?.into_iter().eq(0..count));
        caller.put(count, count)?;
    }
    Ok(())
}

/// What is written where the walk has read already it does not tell; what is written further on,
/// it does.
#[test]
fn what_is_written_meanwhile() -> Result<(), Error> {
    let caller = filled((0..200).map(|key| 2 * key))?;
    let mut rows = caller.walk(..)?;
    assert_eq!(rows.next(), Some(Ok((0, 0.into()))));
    let ahead = 2 * AT_A_TIME;
    caller.put(1, 1)?; // among the rows that were read
    caller.put(2, 0)?;
    caller.remove(4)?;
    caller.put(ahead + 1, 1)?; // further on
    caller.put(ahead + 2, 0)?;
    caller.remove(ahead + 4)?;
    let told = rows.collect::<Result<Vec<_>, _>>()?;
    let wanted = (2..400).filter_map(|key| match key {
        key if key == ahead + 1 => Some((key, 1.into())),
        key if key == ahead + 2 => Some((key, 0.into())),
        key if key == ahead + 4 => None,
        key => (key % 2 == 0).then(|| (key, key.into())),
    });
    assert!(told.into_iter().eq(wanted));
    Ok(())
}

/// Each reading is a read of the caller; what stands in between is told without one.
#[test]
fn times() -> Result<(), Error> {
    let caller = filled(0..100)?;
    let before = caller.time();
    let mut rows = caller.walk(..)?;
    assert_eq!(caller.time(), before);
    rows.next().transpose()?;
    let read = caller.time();
    assert!(read > before && caller.seen() == read);
    let written = caller.put(0, 0)?;
    assert_eq!(rows.by_ref().take(63).count(), 63);
    assert_eq!(caller.time(), written);
    rows.next().transpose()?;
    assert!(caller.time() > written);
    Ok(())
}

#[test]
fn it_takes_no_seat() -> Result<(), Error> {
    let store = small()?;
    let callers: Vec<_> = (0..64).map(|_| store.caller()).collect::<Result<_, _>>()?;
    callers[0].put(1, 10)?;
    let walks: Vec<_> = callers.iter().map(|caller| caller.walk(..)).collect::<Result<_, _>>()?;
    assert_eq!(callers[0].range(..).map(drop), Err(NoSeat));
    for walk in walks {
        assert_eq!(walk.collect::<Result<Vec<_>, _>>()?, [(1, 10.into())]);
    }
    Ok(())
}

#[test]
fn one_that_is_left_or_forgotten() -> Result<(), Error> {
    let store = small()?;
    let caller = store.caller()?;
    for key in 0..200 {
        caller.put(key, key)?;
        assert_eq!(
            caller.walk(..)?.take(3).count().min(3),
            3.min(usize::try_from(key).unwrap() + 1)
        );
    }
    mem::forget(caller.walk(..)?);
    let mut rows = caller.walk(..)?;
    rows.next();
    mem::forget(rows);
    drop(caller);
    assert_eq!(keys_of(&store.caller()?)?.len(), 200);
    Ok(())
}

// ---- in threads

/// Walks on while others write: by rising keys, with each key that stays, and with right values.
fn walk_on(caller: &Caller, is_over: &AtomicBool) -> Result<(), Error> {
    while !is_over.load(Ordering::SeqCst) {
        let mut last = None;
        let mut stayed = 0;
        for row in caller.walk(..)? {
            let (key, value) = row?;
            assert!(last < Some(key));
            assert_eq!((value[0], value.len()), (key, 2));
            stayed += u64::from(key % 3 == 0);
            last = Some(key);
        }
        assert_eq!(stayed, 100);
    }
    Ok(())
}

#[test]
fn beside_writers() -> Result<(), Error> {
    for options in [Options::new(), Options::new().merge_in_calls()] {
        let store = options.keys(1_000).epoch(16).open()?;
        let caller = store.caller()?;
        for key in (0..300).step_by(3) {
            caller.put(key, [key, 0])?;
        }
        let is_over = AtomicBool::new(false);
        thread::scope(|scope| {
            let walking: Vec<_> = (0..2)
                .map(|_| {
                    let (caller, is_over) = (store.caller()?, &is_over);
                    Ok(scope.spawn(move || walk_on(&caller, is_over)))
                })
                .collect::<Result<_, Error>>()?;
            for word in 0..20_000 {
                let key = word * 7 % 300;
                if key % 3 == 0 || word % 2 == 0 {
                    caller.put(key, [key, word])?;
                } else {
                    caller.remove(key)?;
                }
            }
            is_over.store(true, Ordering::SeqCst);
            walking.into_iter().try_for_each(|thread| thread.join().unwrap())
        })?;
    }
    Ok(())
}
