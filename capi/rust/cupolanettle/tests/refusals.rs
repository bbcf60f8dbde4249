//! Refusals for old versions, and that they leave the store as it was.
use cupolanettle::{
    BadValue, Caller, Error, Memory, NoSeat, OpenError, Options, Refused, RetainError, Store, Time,
    TryError, Unseen,
};
use std::thread;
use std::time::Duration;

/// More writes than any store of these tests has room for.
const MANY: u64 = 500;

/// So much later.
fn later(time: Time, by: u64) -> Time {
    (u64::from(time) + by).into()
}

/// A store with little room, in which calls merge or not, and writes do not wait for snapshots.
fn tiny(merge_in_calls: bool) -> Result<Store, OpenError> {
    let options = Options::new().keys(16).epoch(4).wait(Duration::ZERO);
    if merge_in_calls {
        options.merge_in_calls().open()
    } else {
        options.open()
    }
}

/// Overwrites the key until that is refused so, and answers the last word that was written, if one
/// was.
fn overwrite(caller: &Caller, key: u64, wanted: Refused) -> Option<u64> {
    for word in 0..MANY {
        if let Err(refused) = caller.put(key, word) {
            assert_eq!(refused, wanted);
            return word.checked_sub(1);
        }
    }
    panic!("there was room for all");
}

/// Tries to put the word, again while others are faster.
fn try_put(caller: &Caller, key: u64, word: u64) -> Result<(), TryError> {
    loop {
        match caller.try_put(key, word) {
            Ok(_) => return Ok(()),
            Err(TryError::Full) => return Err(TryError::Full),
            Err(TryError::Refused(refused)) => return Err(refused.into()),
            Err(_) => thread::yield_now(),
        }
    }
}

/// While this is open, which is the caller's own or not, versions fill the store; then there is
/// room again.
fn versions_full_then_room<T>(
    open: impl Fn(&Store, &Caller) -> T,
    wanted: Refused,
) -> Result<(), Error> {
    for merge_in_calls in [false, true] {
        let store = tiny(merge_in_calls)?;
        let (caller, other) = (store.caller()?, store.caller()?);
        caller.put(1, 1_000)?;
        for _ in 0..3 {
            let opened = open(&store, &caller);
            let last = overwrite(&caller, 1, wanted).unwrap();
            assert_eq!(caller.put(2, 20), Err(wanted));
            assert_eq!(caller.remove(1), Err(wanted));
            assert_eq!(caller.retain(.., |_, _| false), Err(wanted.into()));
            assert_eq!(other.put(1, 0), Err(Refused::VersionsFull));
            assert_eq!(other.remove(1), Err(Refused::VersionsFull));
            assert_eq!(store.sweep(), Err(Refused::VersionsFull));
            assert_eq!(try_put(&caller, 1, 0), Err(Refused::VersionsFull.into()));
            assert_eq!((caller.get(1), caller.get(2)), (Some(last.into()), None));
            drop(opened);
            for word in 0..MANY {
                caller.put(1, word)?;
            }
            assert_eq!(caller.count(..), 1);
        }
        assert_eq!(store.stats().run_full, 0);
    }
    Ok(())
}

#[test]
fn a_snapshot_of_nobody_fills_the_store() -> Result<(), Error> {
    versions_full_then_room(|store, _| store.snapshot().unwrap(), Refused::VersionsFull)
}

#[test]
fn a_snapshot_of_another_caller_fills_the_store() -> Result<(), Error> {
    let open = |store: &Store, _: &Caller| {
        let other = store.caller().unwrap();
        let snapshot = other.snapshot().unwrap();
        (other, snapshot)
    };
    versions_full_then_room(open, Refused::VersionsFull)
}

#[test]
fn a_snapshot_of_the_caller_fills_the_store() -> Result<(), Error> {
    versions_full_then_room(|_, caller| caller.snapshot().unwrap(), Refused::OwnSnapshot)
}

#[test]
fn an_iterator_of_the_caller_fills_the_store() -> Result<(), Error> {
    versions_full_then_room(|_, caller| caller.range(..).unwrap(), Refused::OwnSnapshot)
}

/// However long writes may wait, none waits for its own thread.
#[test]
fn the_caller_of_a_snapshot_does_not_wait() -> Result<(), Error> {
    for options in [Options::new(), Options::new().merge_in_calls()] {
        let store = options.keys(16).epoch(4).wait(Duration::from_nanos(u64::MAX - 1)).open();
        assert_eq!(store.err(), Some(OpenError::Wait));
        let store = options.keys(16).epoch(4).wait(Duration::from_secs(1 << 33)).open()?;
        let caller = store.caller()?;
        let snapshot = caller.snapshot()?;
        let last = overwrite(&caller, 1, Refused::OwnSnapshot);
        assert_eq!((snapshot.get(1), caller.get(1)), (None, last.map(Into::into)));
    }
    Ok(())
}

fn all_threads_are_refused(merge_in_calls: bool) -> Result<(), Error> {
    let store = tiny(merge_in_calls)?;
    let callers: Vec<_> = (0..4).map(|_| store.caller()).collect::<Result<_, _>>()?;
    for _ in 0..10 {
        let snapshot = store.snapshot()?;
        let callers = &callers;
        thread::scope(|scope| {
            let store = &store;
            for key in 0..4 {
                scope.spawn(move || {
                    overwrite(&store.caller().unwrap(), key, Refused::VersionsFull);
                });
            }
        });
        drop(snapshot);
        for caller in callers {
            for word in 0..20 {
                caller.put(word % 4, word)?;
            }
        }
        store.sweep()?;
        assert_eq!(store.snapshot()?.count(..), 4);
    }
    Ok(())
}

#[test]
fn all_threads_are_refused_where_a_thread_merges() -> Result<(), Error> {
    all_threads_are_refused(false)
}

#[test]
fn all_threads_are_refused_where_calls_merge() -> Result<(), Error> {
    all_threads_are_refused(true)
}

#[test]
fn full_where_calls_merge() -> Result<(), Error> {
    let store = tiny(true)?;
    let caller = store.caller()?;
    for word in 0..4 {
        try_put(&caller, 1, word)?;
    }
    for _ in 0..3 {
        assert_eq!(try_put(&caller, 1, 9), Err(TryError::Full));
    }
    assert_eq!(caller.get(1), Some(3.into()));
    store.sweep()?;
    store.sweep()?;
    assert_eq!(caller.get(1), Some(3.into()));
    try_put(&caller, 1, 4)?;
    assert_eq!(caller.get(1), Some(4.into()));
    Ok(())
}

#[test]
fn full_calls_the_thread_that_merges() -> Result<(), Error> {
    let store = tiny(false)?;
    let caller = store.caller()?;
    for _ in 0..3 {
        let snapshot = caller.snapshot()?;
        overwrite(&caller, 1, Refused::OwnSnapshot);
        drop(snapshot);
        // A merge that began before the snapshot was dropped may come to VersionsFull still.
        for word in 0..MANY {
            while try_put(&caller, 1, word).is_err() {
                thread::yield_now();
            }
        }
    }
    assert_eq!(caller.get(1), Some((MANY - 1).into()));
    Ok(())
}

#[test]
fn ranges_of_all_kinds() -> Result<(), Error> {
    use std::ops::Bound::{Excluded, Included, Unbounded};
    let store = tiny(false)?;
    let caller = store.caller()?;
    for key in [0, 1, 2, u64::MAX - 1, u64::MAX] {
        caller.put(key, key)?;
    }
    assert_eq!(caller.count(..), 5);
    assert_eq!(caller.count(..=u64::MAX), 5);
    assert_eq!(caller.count(..u64::MAX), 4);
    assert_eq!(caller.count(..0), 0);
    assert_eq!(caller.count(..=0), 1);
    assert_eq!(caller.count(1..1), 0);
    assert_eq!(caller.count(1..=1), 1);
    assert_eq!(caller.count((Excluded(1), Excluded(2))), 0);
    assert_eq!(caller.count((Excluded(u64::MAX), Unbounded)), 0);
    assert_eq!(caller.count((Excluded(u64::MAX - 1), Included(u64::MAX))), 1);
    let (high, low) = (2, 1);
    assert_eq!(caller.count(high..=low), 0);
    assert_eq!(caller.count(high..low), 0);
    assert_eq!(caller.range(high..low)?.count(), 0);
    assert_eq!(caller.range(u64::MAX..)?.count(), 1);
    Ok(())
}

#[test]
fn times_that_were_not_seen() -> Result<(), Error> {
    let store = tiny(false)?;
    let caller = store.caller()?;
    assert_eq!((caller.time(), caller.seen()), (Time::ZERO, Time::ZERO));
    caller.follow(Time::ZERO)?;
    assert_eq!(caller.follow(Time::from(1)), Err(Unseen));
    assert_eq!(caller.follow(Time::from(u64::MAX)), Err(Unseen));
    let time = caller.put(1, 10)?;
    caller.follow(later(time, 1))?;
    assert_eq!(caller.follow(later(time, 1_000)), Err(Unseen));
    assert_eq!(caller.get(1), Some(10.into()));
    assert_eq!(store.caller()?.seen(), Time::ZERO);
    Ok(())
}

#[test]
fn times_of_another_store() -> Result<(), Error> {
    let (caller, stranger) = (tiny(true)?.caller()?, tiny(true)?.caller()?);
    for _ in 0..3 {
        stranger.put(1, 20)?;
    }
    assert_eq!(caller.follow(stranger.seen()), Err(Unseen));
    assert_eq!((caller.seen(), caller.get(1)), (Time::ZERO, None));
    // Once this store has reached that time, nothing tells it from its own.
    let time = (0..3).try_fold(Time::ZERO, |_, word| caller.put(1, word))?;
    caller.follow(stranger.seen())?;
    assert_eq!((caller.get(1), caller.time()), (Some(2.into()), later(time, 1)));
    Ok(())
}

#[test]
fn errors_say_what_they_are() {
    let errors: [Error; 13] = [
        OpenError::Keys.into(),
        OpenError::Versions.into(),
        OpenError::Wait.into(),
        Refused::RunFull.into(),
        Refused::VersionsFull.into(),
        Refused::OwnSnapshot.into(),
        TryError::Full.into(),
        RetainError::Memory.into(),
        Options::new().epoch(1).open().unwrap_err().into(),
        NoSeat.into(),
        Memory.into(),
        BadValue.into(),
        Unseen.into(),
    ];
    for error in errors {
        assert!(!error.to_string().is_empty());
        assert!(std::error::Error::source(&error).is_none());
    }
}
