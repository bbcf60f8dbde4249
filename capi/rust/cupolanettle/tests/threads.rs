//! Threads that write and read beside the merger.
use cupolanettle::{Caller, Error, Options, Refused, Snapshot, Store, Time, TryError, Value};
use std::sync::mpsc;
use std::thread;

const THREADS: u64 = 4;
const ROUNDS: u64 = 5_000;
const OWN_KEYS: u64 = 64;
const SHARED: u64 = 1_000_000;

/// Room for each version, however long a snapshot stays open.
const ROOM: usize = 100_000;

/// Writes and reads keys of its own, and one that all threads write.
fn work(caller: &Caller, own: u64) -> Result<(), Error> {
    let first = own * OWN_KEYS;
    let mut last: Option<Time> = None;
    for round in 0..ROUNDS {
        let key = first + round % OWN_KEYS;
        let time = caller.put(key, [round, own])?;
        assert!(last < Some(time));
        assert_eq!(caller.get(key), Some(Value::from([round, own])));
        assert!(caller.time() > time);
        last = Some(caller.put(SHARED, [round, own, round ^ own])?);
        let shared = caller.get(SHARED).unwrap();
        assert_eq!((shared.len(), shared[2]), (3, shared[0] ^ shared[1]));
        if round % 16 == 0 {
            look(&caller.snapshot()?, first..first + OWN_KEYS, round)?;
            assert_eq!(caller.range(SHARED..)?.count(), 1);
        }
    }
    Ok(())
}

/// Reads all keys of the thread after so many rounds.
fn look(snapshot: &Snapshot, keys: std::ops::Range<u64>, round: u64) -> Result<(), Error> {
    let rows: Vec<_> = snapshot.range(keys.clone()).collect::<Result<_, _>>()?;
    assert_eq!(rows.len() as u64, (round + 1).min(OWN_KEYS));
    assert_eq!(snapshot.count(keys.clone()), rows.len() as u64);
    for (&(key, value), wanted) in rows.iter().zip(keys) {
        assert_eq!(key, wanted);
        assert_eq!(snapshot.get(key), Some(value));
        assert!(value[0] <= round && round < value[0] + OWN_KEYS);
    }
    Ok(())
}

fn work_in_threads(store: &Store) -> Result<(), Error> {
    thread::scope(|scope| {
        let working: Vec<_> = (0..THREADS)
            .map(|own| {
                let caller = store.caller()?;
                Ok(scope.spawn(move || work(&caller, own)))
            })
            .collect::<Result<_, Error>>()?;
        working.into_iter().try_for_each(|thread| thread.join().unwrap())
    })?;
    assert_eq!(store.snapshot()?.count(..SHARED), THREADS * OWN_KEYS);
    Ok(())
}

#[test]
fn a_thread_merges() -> Result<(), Error> {
    work_in_threads(&Options::new().keys(ROOM).epoch(256).open()?)
}

#[test]
fn epochs_are_short() -> Result<(), Error> {
    work_in_threads(&Options::new().keys(ROOM).epoch(4).patience(0).open()?)
}

#[test]
fn calls_merge() -> Result<(), Error> {
    work_in_threads(&Options::new().keys(ROOM).epoch(256).merge_in_calls().open()?)
}

/// Tries until the write is made or refused.
fn until_made(attempt: impl Fn() -> Result<Time, TryError>) -> Result<Time, Refused> {
    loop {
        match attempt() {
            Ok(time) => return Ok(time),
            Err(TryError::Refused(refused)) => return Err(refused),
            Err(_) => thread::yield_now(),
        }
    }
}

#[test]
fn writers_that_never_wait() -> Result<(), Error> {
    let store = Options::new().keys(1_000).epoch(64).open()?;
    thread::scope(|scope| {
        for own in 0..THREADS {
            let caller = store.caller()?;
            scope.spawn(move || {
                for round in 0..ROUNDS {
                    until_made(|| caller.try_put(own, round)).unwrap();
                    assert_eq!(caller.get(own), Some(round.into()));
                    until_made(|| caller.try_remove(own)).unwrap();
                    assert_eq!(caller.get(own), None);
                }
            });
        }
        Ok::<_, Error>(())
    })?;
    assert_eq!(store.snapshot()?.count(..), 0);
    Ok(())
}

#[test]
fn who_follows_sees_what_was_seen() -> Result<(), Error> {
    let store = Options::new().keys(ROOM).epoch(256).open()?;
    let (sender, receiver) = mpsc::sync_channel::<(u64, Time)>(16);
    let (writer, reader) = (store.caller()?, store.caller()?);
    let writing = thread::spawn(move || -> Result<(), Error> {
        for key in 0..ROUNDS {
            writer.put(key, key)?;
            sender.send((key, writer.seen())).unwrap();
        }
        Ok(())
    });
    for (key, seen) in receiver {
        reader.follow(seen)?;
        assert!(reader.seen() >= seen);
        assert_eq!(reader.get(key), Some(key.into()));
        let snapshot = reader.snapshot()?;
        assert!(snapshot.time() >= seen);
        assert_eq!(snapshot.get(key), Some(key.into()));
    }
    writing.join().unwrap()
}

#[test]
fn snapshots_go_to_other_threads() -> Result<(), Error> {
    let store = Options::new().keys(1_000).epoch(64).open()?;
    let caller = store.caller()?;
    for round in 0..200 {
        caller.put(1, round)?;
        let snapshot = caller.snapshot()?;
        caller.put(1, round + 1)?;
        let read = thread::spawn(move || snapshot.get(1));
        let rows = caller.range(..)?;
        let count = thread::spawn(move || rows.count());
        assert_eq!(read.join().unwrap(), Some(round.into()));
        assert_eq!(count.join().unwrap(), 1);
    }
    Ok(())
}
