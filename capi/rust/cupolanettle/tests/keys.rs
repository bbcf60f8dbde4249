//! Stores that have as many keys as they may have: what is refused then, what is taken, and that
//! keys that are removed make room for others.
use cupolanettle::{
    Batch, BatchError, Caller, ChangeError, Error, Options, Refused, Store, TryError,
};
use std::thread;

/// Keys, and the writes of an epoch.
const SIZES: [(u64, u64); 6] = [(1, 4), (10, 4), (100, 4), (50, 64), (1_000, 64), (5_000, 4_096)];

/// Both of a store with these sizes whose thread merges, and of one in which calls do.
fn both(keys: u64, epoch: u64) -> [Options; 2] {
    let size = |number: u64| usize::try_from(number).unwrap();
    let options = Options::new().keys(size(keys)).epoch(size(epoch));
    [options, options.merge_in_calls()]
}

/// Puts keys from 0 on until that is refused for too many, and answers how many there are.
fn fill(caller: &Caller) -> u64 {
    let refused = (0..).find_map(|key| caller.put(key, key).err().map(|refused| (key, refused)));
    let (count, refused) = refused.unwrap();
    assert_eq!((refused, caller.count(..)), (Refused::RunFull, count));
    count
}

/// Tries to put, again while others are faster, and behind a merge where the epoch is full.
fn try_put(store: &Store, caller: &Caller, key: u64) -> Result<(), Refused> {
    loop {
        match caller.try_put(key, key) {
            Ok(_) => return Ok(()),
            Err(TryError::Refused(refused)) => return Err(refused),
            Err(TryError::Full) => store.sweep()?,
            Err(_) => thread::yield_now(),
        }
    }
}

/// In a store that has too many keys no new one gets a value, by whichever call.
fn assert_refused(store: &Store, caller: &Caller, new: u64) -> Result<(), Error> {
    let keys = caller.count(..);
    let refused = ChangeError::Refused(Refused::RunFull);
    assert_eq!(caller.put(new, 0), Err(Refused::RunFull));
    assert_eq!(try_put(store, caller, new), Err(Refused::RunFull));
    assert_eq!(caller.add(new, 1), Err(refused));
    assert_eq!(caller.put_if_absent(new, 1), Err(refused));
    assert_eq!(caller.replace(new, None, Some(1.into())), Err(refused));
    assert_eq!(caller.update(new, |_| Some(1)), Err(Refused::RunFull));
    let batch = caller.batch(Batch::new().set(0, 7).set(new, 1));
    assert_eq!(batch, Err(BatchError::Refused(Refused::RunFull)));
    // What gives no new key a value is taken.
    assert!(matches!(caller.put_if_absent(0, 1), Err(ChangeError::Kept(_))));
    assert!(matches!(caller.replace(new, Some(1.into()), None), Err(ChangeError::Kept(_))));
    caller.update(new, |_| None::<u64>)?;
    caller.remove(new)?;
    assert_eq!((caller.count(..), caller.get(new)), (keys, None));
    Ok(())
}

/// Keys that have a value are written, as often as it may be.
fn assert_taken(caller: &Caller, keys: u64, times: u64) -> Result<(), Error> {
    for word in 0..times {
        caller.put(word % keys, word)?;
        caller.add(word % keys, 1)?;
        caller.remove(u64::MAX)?;
    }
    caller.batch(Batch::new().set(0, 1).set(keys - 1, 2).remove(u64::MAX))?;
    caller.update(0, |old| old)?;
    assert_eq!(caller.count(..), keys);
    Ok(())
}

/// To the brim, to one key less than may be, to none, and again.
#[test]
fn fill_remove_all_and_fill_again() -> Result<(), Error> {
    for (keys, epoch) in SIZES {
        for options in both(keys, epoch) {
            let store = options.open()?;
            let caller = store.caller()?;
            for round in 1..4 {
                let count = fill(&caller);
                assert!((keys..=keys + 6 * epoch + 64).contains(&count), "{count} of {keys}");
                assert_refused(&store, &caller, count)?;
                assert_taken(&caller, count, 3 * epoch)?;
                assert_eq!(caller.retain(keys.., |_, _| false)?, count - keys);
                caller.put(count, 0)?;
                caller.remove(count)?;
                for key in 0..keys {
                    caller.remove(key)?;
                }
                assert_eq!(caller.count(..), 0);
                assert!(store.stats().run_full >= 8 * round);
            }
            assert_eq!(store.stats().versions_full, 0);
        }
    }
    Ok(())
}

/// As many keys as the store was opened for are written and removed for ever.
#[test]
fn as_many_keys_as_may_be_are_no_reason_to_refuse() -> Result<(), Error> {
    for (keys, epoch) in SIZES {
        for options in both(keys, epoch) {
            let store = options.open()?;
            let caller = store.caller()?;
            for word in 0..10 * (keys + epoch) {
                caller.put(word % keys, word)?;
            }
            for word in 0..10 * epoch {
                caller.remove(word % keys)?;
                caller.put(word % keys, word)?;
            }
            assert_eq!((caller.count(..), store.stats().run_full), (keys, 0));
        }
    }
    Ok(())
}

/// Other keys each time, of which none is left.
#[test]
fn keys_that_were_removed_make_room() -> Result<(), Error> {
    for options in both(16, 4) {
        let caller = options.open()?.caller()?;
        for key in 0..500 {
            caller.put(key, key)?;
            caller.remove(key)?;
        }
        assert_eq!(caller.count(..), 0);
    }
    Ok(())
}

/// Versions that a snapshot keeps are no keys.
#[test]
fn versions_are_not_counted_as_keys() -> Result<(), Error> {
    for options in both(50, 8) {
        let store = options.versions(2_000).open()?;
        let caller = store.caller()?;
        for key in 0..25 {
            caller.put(key, key)?;
        }
        let snapshot = caller.snapshot()?;
        for word in 0..1_000 {
            caller.put(word % 25, word)?;
        }
        for key in 25..50 {
            caller.put(key, key)?;
        }
        assert_eq!((caller.count(..), snapshot.count(..)), (50, 25));
    }
    Ok(())
}

/// Loops of tries end where the store is full, and go on where there is room again.
#[test]
fn loops_of_tries_end() -> Result<(), Error> {
    for options in both(16, 4) {
        let store = options.open()?;
        let caller = store.caller()?;
        let refused = (0..500).find_map(|key| try_put(&store, &caller, key).err());
        assert_eq!(refused, Some(Refused::RunFull));
        caller.retain(.., |key, _| key < 8)?;
        try_put(&store, &caller, 1_000)?;
        assert_eq!(caller.count(..), 9);
    }
    Ok(())
}

/// Four threads fill a store with keys of their own until all of them are refused.
#[test]
fn all_threads_are_refused() -> Result<(), Error> {
    const THREADS: u64 = 4;
    for options in both(1_000, 64) {
        let store = options.open()?;
        for _ in 0..3 {
            thread::scope(|scope| {
                for own in 0..THREADS {
                    let caller = store.caller()?;
                    scope.spawn(move || {
                        let keys = own << 32..;
                        let mine = keys.take_while(|&key| caller.put(key, key).is_ok()).count();
                        assert!(mine == 0 || caller.put(own << 32, 1).is_ok());
                    });
                }
                Ok::<_, Error>(())
            })?;
            let caller = store.caller()?;
            let count = caller.count(..);
            assert!((1_000..=1_000 + 6 * 64 + 64).contains(&count), "{count}");
            assert_eq!(caller.retain(.., |_, _| false)?, count);
        }
        assert_eq!(store.stats().versions_full, 0);
    }
    Ok(())
}

/// Four keys are no reason to refuse one, however many versions a snapshot keeps, and however often
/// merges come between.
#[test]
fn versions_are_not_counted_as_keys_beside_writers() -> Result<(), Error> {
    const WRITERS: u64 = 3;
    const WRITES: u64 = 500;
    for options in both(16, 4) {
        let store = options.versions(5_000).open()?; // room for all writes of a round
        let caller = store.caller()?;
        for _ in 0..20 {
            let _snapshot = store.snapshot()?;
            thread::scope(|scope| {
                let write = |own: u64| -> Result<(), Error> {
                    let caller = store.caller()?;
                    (0..WRITES).try_for_each(|word| caller.put(own, word).map(drop))?;
                    Ok(())
                };
                let writing: Vec<_> =
                    (0..WRITERS).map(|own| scope.spawn(move || write(own))).collect();
                for _ in 0..WRITES {
                    caller.put(WRITERS, 0)?;
                    caller.remove(WRITERS)?;
                }
                writing.into_iter().try_for_each(|thread| thread.join().unwrap())
            })?;
        }
        assert_eq!((store.stats().run_full, store.stats().versions_full), (0, 0));
    }
    Ok(())
}
