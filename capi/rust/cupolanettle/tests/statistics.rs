//! What a store tells of itself, and what its handles show.
use cupolanettle::{Error, NoSeat, Options, Refused, Statistics, Time};
use std::time::Duration;

const KEYS: u64 = 100;
const EPOCH: u64 = 16;
const VERSIONS: u64 = 1_000;

fn options() -> Options {
    Options::new().keys(100).epoch(16).versions(1_000).wait(Duration::ZERO).merge_in_calls()
}

#[test]
fn of_an_empty_store() -> Result<(), Error> {
    let store = options().open()?;
    let now = store.stats();
    assert_eq!((now.callers, now.snapshots, now.scans), (0, 0, 0));
    assert_eq!((now.oldest_time, now.oldest_age), (Time::ZERO, Duration::ZERO));
    assert_eq!((now.clock, now.epoch_writes, now.merges), (Time::ZERO, 0, 0));
    assert_eq!((now.level_zero, now.level_one), (0, 0));
    assert_eq!((now.room_for_keys, now.room_for_versions), (KEYS, KEYS + VERSIONS));
    assert_eq!((now.last_merge, now.longest_merge), (Duration::ZERO, Duration::ZERO));
    assert_eq!((now.waits, now.longest_wait), (0, Duration::ZERO));
    assert_eq!((now.run_full, now.versions_full, now.no_seat), (0, 0, 0));
    assert!(now.bytes > 176 * (KEYS + VERSIONS));
    assert_eq!(now, store.clone().stats());
    Ok(())
}

#[test]
fn of_handles() -> Result<(), Error> {
    let store = options().open()?;
    let (one, other) = (store.caller()?, store.caller()?);
    one.put(1, 10)?;
    let oldest = one.snapshot()?;
    one.put(1, 11)?;
    let (younger, rows) = (store.snapshot()?, other.range(..)?);
    let now = store.stats();
    assert_eq!((now.callers, now.snapshots, now.scans), (2, 3, 0));
    assert_eq!((now.oldest_time, now.clock), (oldest.time(), one.seen()));
    assert!(now.oldest_age > Duration::ZERO);
    let later = store.stats();
    assert!(later.oldest_age >= now.oldest_age);
    drop(oldest);
    assert_eq!(store.stats().oldest_time, younger.time().min(rows.time()));
    drop((younger, rows, one));
    let now = store.stats();
    assert_eq!((now.callers, now.snapshots, now.oldest_age), (1, 0, Duration::ZERO));
    Ok(())
}

#[test]
fn of_merges_and_refusals() -> Result<(), Error> {
    let store = options().open()?;
    let caller = store.caller()?;
    for key in 0..KEYS {
        caller.put(key, key)?;
    }
    let now = store.stats();
    assert_eq!((now.clock, now.epoch_writes), (caller.seen(), u64::from(caller.seen()) % EPOCH));
    assert!(now.merges > 3 && now.waits > 3 && now.longest_merge >= now.last_merge);
    assert!(now.level_zero + now.level_one <= KEYS);
    let snapshot = caller.snapshot()?;
    let refused = (0..).find_map(|word| caller.put(0, word).err());
    assert_eq!(refused, Some(Refused::OwnSnapshot));
    let now = store.stats();
    assert_eq!((now.versions_full, now.run_full), (1, 0));
    assert!(now.level_one > KEYS && now.room_for_keys == 0);
    assert!(now.room_for_versions <= 4 * EPOCH); // three epochs may be in level zero
    drop(snapshot);
    let refused = (0..).find_map(|key| caller.put(key, key).err());
    assert_eq!(refused, Some(Refused::RunFull));
    let callers: Vec<_> = (1..64).map(|_| store.caller()).collect::<Result<_, _>>()?;
    assert_eq!(store.snapshot().map(drop), Err(NoSeat));
    let now = store.stats();
    assert_eq!((now.run_full, now.no_seat, now.callers), (1, 1, 64));
    drop(callers);
    Ok(())
}

/// A number of a store that somebody else calls may have changed since; none runs back.
#[test]
fn beside_writers() -> Result<(), Error> {
    let store = Options::new().keys(1_000).epoch(64).open()?;
    let counts = |now: &Statistics| [now.clock.into(), now.merges, now.waits];
    std::thread::scope(|scope| {
        let writing = scope.spawn(|| -> Result<(), Error> {
            let caller = store.caller()?;
            (0..20_000).try_for_each(|word| caller.put(word % 64, word).map(drop))?;
            Ok(())
        });
        let mut last = [0; 3];
        while !writing.is_finished() {
            let now = store.stats();
            let found = counts(&now);
            assert!(last.iter().zip(&found).all(|(last, found)| last <= found));
            assert!(now.epoch_writes <= 64 && now.callers <= 1 && now.bytes > 0);
            last = found;
        }
        writing.join().unwrap()
    })
}

#[test]
fn what_handles_show() -> Result<(), Error> {
    let store = options().open()?;
    let caller = store.caller()?;
    for key in 0..3 {
        caller.put(key, key)?;
    }
    assert_eq!(
        format!("{store:?}"),
        "Store { keys: 100, room_for_keys: 100, clock: 3, epoch_writes: 3, callers: 1, \
         snapshots: 0, .. }"
    );
    let snapshot = caller.snapshot()?;
    let (number, of_snapshot) = (caller.number(), snapshot.number());
    assert_eq!(
        format!("{caller:?}"),
        format!("Caller {{ number: {number}, time: 3, seen: 3, .. }}")
    );
    assert_eq!(
        format!("{snapshot:?}"),
        format!("Snapshot {{ number: {of_snapshot}, time: 3, .. }}")
    );
    assert_eq!(format!("{:?}", caller.range(..)?), "Range { time: 3, .. }");
    assert_eq!(format!("{:?}", caller.walk(..)?), "Walk { .. }");
    Ok(())
}
