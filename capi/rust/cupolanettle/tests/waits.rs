//! Writes that wait for a snapshot to be dropped, and for how long one may be open before they do.
use cupolanettle::{Caller, Error, Options, Refused, Snapshot, Store, TryError, Value};
use std::sync::atomic::{AtomicU64, Ordering};
use std::sync::mpsc;
use std::thread;
use std::time::Duration;

/// Longer than any test runs, so that it ends only where a write waits for nothing.
const ENDLESS: Duration = Duration::from_secs(600);

/// What a store with 16 keys and epochs of four writes has room for.
const VERSIONS: u64 = 6 * 4 + 64;

const PLAYERS: u64 = 8;
const THREADS: u64 = 3;
const ROUNDS: u64 = 2_000;

/// Little room: of a store whose thread merges, and of one in which calls do.
fn both(wait: Duration) -> [Options; 2] {
    let options = Options::new().keys(16).epoch(4).wait(wait);
    [options, options.merge_in_calls()]
}

/// Writes until a write that waits would wait for a snapshot.
fn fill_with_versions(store: &Store, caller: &Caller) {
    loop {
        match caller.try_put(0, 0) {
            Err(TryError::Refused(refused)) => return assert_eq!(refused, Refused::VersionsFull),
            Err(TryError::Full) => _ = store.sweep(),
            _ => thread::yield_now(),
        }
    }
}

#[test]
fn a_write_is_made_once_the_snapshot_is_dropped() -> Result<(), Error> {
    for options in both(ENDLESS) {
        let store = options.open()?;
        let caller = store.caller()?;
        for round in 0..20 {
            let snapshot = store.snapshot()?;
            fill_with_versions(&store, &caller);
            let (tell, hear) = mpsc::channel();
            thread::scope(|scope| {
                scope.spawn(move || {
                    hear.recv().unwrap();
                    drop(snapshot);
                });
                tell.send(()).unwrap();
                caller.put(1, round) // there is no room until then
            })?;
            assert_eq!(caller.get(1), Some(round.into()));
        }
    }
    Ok(())
}

#[test]
fn a_write_that_waited_for_nothing_is_refused() -> Result<(), Error> {
    const WAIT: Duration = Duration::from_millis(1);
    for options in both(WAIT) {
        let store = options.open()?;
        let caller = store.caller()?;
        let snapshot = store.snapshot()?;
        fill_with_versions(&store, &caller);
        let before = store.stats();
        assert_eq!(caller.put(1, 10), Err(Refused::VersionsFull));
        let now = store.stats();
        assert!(now.longest_wait >= WAIT);
        assert_eq!((now.versions_full, now.waits), (before.versions_full + 1, before.waits + 1));
        drop(snapshot);
        caller.put(1, 10)?;
    }
    Ok(())
}

/// As many writes as there are versions find room beside a snapshot, even if none may wait.
#[test]
fn a_snapshot_may_be_open_for_as_many_writes_as_there_are_versions() -> Result<(), Error> {
    for options in both(Duration::ZERO) {
        let store = options.open()?;
        let caller = store.caller()?;
        for round in 0..20 {
            for player in 0..16 {
                caller.put(player, round)?;
            }
            let snapshot = caller.snapshot()?;
            for write in 0..VERSIONS {
                caller.add(write % 16, 1)?;
            }
            assert!((0..16).all(|player| snapshot.get(player) == Some(round.into())));
        }
        assert_eq!(store.stats().versions_full, 0);
    }
    Ok(())
}

// ---- a leaderboard

/// Scores for players in turn.
fn play(store: &Store) -> Result<(), Error> {
    let caller = store.caller()?;
    for round in 0..ROUNDS {
        caller.add(round % PLAYERS, 1)?;
    }
    Ok(())
}

fn scores(snapshot: &Snapshot) -> Result<Vec<(u64, Value)>, Error> {
    Ok(snapshot.range(..).collect::<Result<_, _>>()?)
}

/// Looks at the players as long as some play. Holds each snapshot until there is no more room for
/// versions.
fn watch(store: &Store, playing: &AtomicU64) -> Result<(), Error> {
    let is_over = || playing.load(Ordering::SeqCst) == 0;
    while !is_over() {
        let snapshot = store.snapshot()?;
        let found = scores(&snapshot)?;
        while !is_over() && store.sweep().is_ok() {
            thread::yield_now();
        }
        assert_eq!(scores(&snapshot)?, found);
    }
    Ok(())
}

/// Writers of a few hot keys and a reader that holds snapshots: nobody is refused.
#[test]
fn a_leaderboard() -> Result<(), Error> {
    for options in both(ENDLESS) {
        let store = options.open()?;
        let playing = AtomicU64::new(THREADS);
        thread::scope(|scope| {
            let threads: Vec<_> = (0..THREADS)
                .map(|_| {
                    scope.spawn(|| {
                        let came = play(&store);
                        playing.fetch_sub(1, Ordering::SeqCst);
                        came
                    })
                })
                .collect();
            watch(&store, &playing)?;
            threads.into_iter().try_for_each(|thread| thread.join().unwrap())
        })?;
        let sum: u64 = scores(&store.snapshot()?)?.iter().map(|(_, score)| score[0]).sum();
        assert_eq!(sum, THREADS * ROUNDS);
        assert_eq!(store.stats().versions_full, 0);
    }
    Ok(())
}
