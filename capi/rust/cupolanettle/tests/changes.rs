//! Changes: what each finds and leaves, and that none is lost between threads beside the merger.
use cupolanettle::{
    Caller, ChangeError, Changed, Error, Kept, Options, Refused, Store, Time, Value,
};
use std::panic::catch_unwind;
use std::thread;

const THREADS: u64 = 4;
const ROUNDS: u64 = 2_000;
const KEYS: u64 = 8;

/// So much later.
fn later(time: Time, by: u64) -> Time {
    (u64::from(time) + by).into()
}

fn small() -> Result<Store, Error> {
    Ok(Options::new().keys(1_000).epoch(64).open()?)
}

/// What the change kept.
fn kept(came: Result<Changed, ChangeError>) -> Kept {
    match came {
        Err(ChangeError::Kept(kept)) => kept,
        came => panic!("{came:?}"),
    }
}

fn both(changed: Changed) -> (Option<Value>, Option<Value>) {
    (changed.before, changed.after)
}

// ---- alone

#[test]
fn add() -> Result<(), Error> {
    let caller = small()?.caller()?;
    assert_eq!(both(caller.add(1, 5)?), (None, Some(5.into())));
    assert_eq!(both(caller.add(1, 7)?), (Some(5.into()), Some(12.into())));
    assert_eq!(both(caller.add(1, 0)?), (Some(12.into()), Some(12.into())));
    caller.add(1, u64::MAX - 12)?;
    assert_eq!(kept(caller.add(1, 1)).value, Some(u64::MAX.into()));
    assert_eq!(kept(caller.add(1, u64::MAX)).value, Some(u64::MAX.into()));
    caller.add(1, 0)?;
    caller.put(2, [1, 2])?;
    assert_eq!(kept(caller.add(2, 1)).value, Some([1, 2].into()));
    assert_eq!(both(caller.add(3, u64::MAX)?), (None, Some(u64::MAX.into())));
    caller.remove(1)?;
    assert_eq!(both(caller.add(1, 0)?), (None, Some(0.into())));
    Ok(())
}

#[test]
fn put_if_absent() -> Result<(), Error> {
    let caller = small()?.caller()?;
    assert_eq!(both(caller.put_if_absent(1, 10)?), (None, Some(10.into())));
    assert_eq!(kept(caller.put_if_absent(1, 11)).value, Some(10.into()));
    assert_eq!(kept(caller.put_if_absent(1, 10)).value, Some(10.into()));
    caller.remove(1)?;
    assert_eq!(both(caller.put_if_absent(1, [1; 8])?), (None, Some([1; 8].into())));
    Ok(())
}

#[test]
fn replace() -> Result<(), Error> {
    let caller = small()?.caller()?;
    let (old, new) = (Some(Value::from(50)), Some(Value::from(51)));
    assert_eq!(kept(caller.replace(1, old, new)).value, None);
    assert_eq!(both(caller.replace(1, None, None)?), (None, None));
    assert_eq!(both(caller.replace(1, None, old)?), (None, old));
    assert_eq!(kept(caller.replace(1, None, new)).value, old);
    assert_eq!(kept(caller.replace(1, new, new)).value, old);
    assert_eq!(kept(caller.replace(1, Some([50, 0].into()), new)).value, old);
    assert_eq!(both(caller.replace(1, old, old)?), (old, old));
    assert_eq!(both(caller.replace(1, old, new)?), (old, new));
    assert_eq!(kept(caller.replace(1, old, None)).value, new);
    assert_eq!(both(caller.replace(1, new, None)?), (new, None));
    assert_eq!(caller.get(1), None);
    Ok(())
}

#[test]
fn update() -> Result<(), Error> {
    let caller = small()?.caller()?;
    assert_eq!(both(caller.update(1, |_| None::<u64>)?), (None, None));
    let push = |old: Option<Value>| {
        let mut words = old.map_or(Vec::new(), |old| old.to_vec());
        words.push(words.len() as u64);
        Value::try_from(&words[..]).ok()
    };
    assert_eq!(both(caller.update(1, push)?), (None, Some(0.into())));
    for _ in 0..7 {
        caller.update(1, push)?;
    }
    let full = Some(Value::from([0, 1, 2, 3, 4, 5, 6, 7]));
    assert_eq!(caller.get(1), full);
    assert_eq!(both(caller.update(1, |old| old)?), (full, full));
    assert_eq!(both(caller.update(1, push)?), (full, None));
    Ok(())
}

#[test]
fn update_asks_again_where_another_write_came_between() -> Result<(), Error> {
    let store = small()?;
    let (caller, other) = (store.caller()?, store.caller()?);
    let mut found = Vec::new();
    let changed = caller.update(1, |old| {
        found.push(old);
        match found.len() {
            1 => _ = other.put(1, 10).unwrap(),
            2 => _ = other.remove(1).unwrap(),
            3 => _ = other.add(1, 20).unwrap(),
            _ => {}
        }
        Some(found.len() as u64)
    })?;
    assert_eq!(found, [None, Some(10.into()), None, Some(20.into())]);
    assert_eq!(both(changed), (Some(20.into()), Some(4.into())));
    // Between two writes of the same value there is nothing to see.
    let mut asked = 0;
    caller.update(1, |old| {
        asked += 1;
        other.put(1, 5).unwrap();
        other.put(1, 4).unwrap();
        old
    })?;
    assert_eq!((asked, caller.get(1)), (1, Some(4.into())));
    Ok(())
}

#[test]
fn the_function_of_an_update_may_call_its_caller() -> Result<(), Error> {
    let caller = small()?.caller()?;
    caller.put(2, 20)?;
    caller.update(1, |_| {
        caller.update(3, |old| old.or(caller.get(2))).unwrap();
        caller.get(3)
    })?;
    assert_eq!(caller.get(1), Some(20.into()));
    // It is asked once more where it changes the key itself.
    let mut asked = 0;
    let changed = caller.update(1, |old| {
        asked += 1;
        if asked == 1 {
            caller.add(1, 1).unwrap();
        }
        old.map(|old| 2 * old[0])
    })?;
    assert_eq!((asked, both(changed)), (2, (Some(21.into()), Some(42.into()))));
    Ok(())
}

#[test]
fn an_update_whose_function_panics_writes_nothing() -> Result<(), Error> {
    let caller = small()?.caller()?;
    caller.put(1, 10)?;
    let came = catch_unwind(|| {
        caller.update(1, |old| -> Option<Value> { std::panic::resume_unwind(Box::new(old)) })
    });
    let found = came.unwrap_err().downcast::<Option<Value>>().unwrap();
    assert_eq!(*found, Some(10.into()));
    assert_eq!((caller.get(1), caller.time()), (Some(10.into()), Time::from(1)));
    caller.add(1, 1)?;
    assert_eq!(caller.get(1), Some(11.into()));
    Ok(())
}

#[test]
fn times_rise() -> Result<(), Error> {
    let caller = small()?.caller()?;
    let first = caller.add(1, 1)?;
    assert_eq!((caller.time(), caller.seen()), (first.time, later(first.time, 1)));
    // One that keeps the value is a read.
    let read = kept(caller.replace(1, None, None));
    assert!(read.time > first.time);
    assert_eq!((caller.time(), caller.seen()), (read.time, read.time));
    let last = caller.update(1, |old| old)?;
    assert!(last.time >= read.time);
    assert_eq!((caller.time(), caller.seen()), (last.time, later(last.time, 1)));
    Ok(())
}

#[test]
fn changes_are_refused_as_writes() -> Result<(), Error> {
    for options in [Options::new(), Options::new().merge_in_calls()] {
        let store = options.keys(16).epoch(4).open()?;
        let caller = store.caller()?;
        let snapshot = caller.snapshot()?;
        let refused = (0..500).find_map(|_| caller.add(1, 1).err());
        assert_eq!(refused, Some(ChangeError::Refused(Refused::OwnSnapshot)));
        let sum = caller.get(1);
        assert_eq!(caller.put_if_absent(2, 20), Err(Refused::OwnSnapshot.into()));
        assert_eq!(caller.replace(1, sum, None), Err(Refused::OwnSnapshot.into()));
        assert_eq!(caller.update(1, |_| None::<Value>), Err(Refused::OwnSnapshot));
        assert_eq!((caller.get(1), caller.count(..)), (sum, 1));
        drop(snapshot);
        let changed = caller.add(1, 1)?;
        assert_eq!(changed.before, sum);
    }
    Ok(())
}

#[test]
fn errors_say_what_they_are() -> Result<(), Error> {
    let caller = small()?.caller()?;
    let kept = kept(caller.replace(1, Some(10.into()), None));
    let error = ChangeError::from(kept);
    assert_eq!(Error::from(error), Error::Kept(kept));
    assert_eq!(Error::from(error).to_string(), kept.to_string());
    let error = ChangeError::from(Refused::RunFull);
    assert_eq!(Error::from(error), Error::Refused(Refused::RunFull));
    assert_ne!(error.to_string(), Refused::RunFull.to_string());
    Ok(())
}

// ---- in threads

/// Adds one by a get and a replacement, until no other write came between.
fn add_by_replacing(caller: &Caller, key: u64) -> Result<(), Error> {
    loop {
        let old = caller.get(key);
        let new = old.map_or(0, |old| old[0]) + 1;
        match caller.replace(key, old, Some(new.into())) {
            Ok(_) => return Ok(()),
            Err(ChangeError::Kept(_)) => {}
            Err(refused) => return Err(refused.into()),
        }
    }
}

/// Counts in three ways, and answers how many keys it was the first to write.
fn count(caller: &Caller, own: u64) -> Result<u64, Error> {
    let mut claimed = 0;
    for round in 0..ROUNDS {
        let key = round % KEYS;
        let changed = caller.add(100 + key, 1)?;
        assert_eq!(changed.before.map_or(0, |old| old[0]) + 1, changed.after.unwrap()[0]);
        caller.update(200 + key, |old| Some(old.map_or(0, |old| old[0]) + 1))?;
        add_by_replacing(caller, 300 + key)?;
        if round % 4 == 0 {
            claimed += u64::from(caller.put_if_absent(1_000 + round, own).is_ok());
        }
    }
    Ok(claimed)
}

fn count_in_threads(options: Options) -> Result<(), Error> {
    let store = options.keys(10_000).open()?;
    let claimed = thread::scope(|scope| {
        let counting: Vec<_> = (0..THREADS)
            .map(|own| {
                let caller = store.caller()?;
                Ok(scope.spawn(move || count(&caller, own)))
            })
            .collect::<Result<_, Error>>()?;
        counting.into_iter().map(|thread| thread.join().unwrap()).sum::<Result<u64, Error>>()
    })?;
    let snapshot = store.snapshot()?;
    for way in [100, 200, 300] {
        let rows: Vec<_> = snapshot.range(way..way + KEYS).collect::<Result<_, _>>()?;
        assert_eq!(rows.len() as u64, KEYS);
        assert!(rows.iter().all(|(_, sum)| *sum == Value::from(THREADS * ROUNDS / KEYS)));
    }
    assert_eq!((claimed, snapshot.count(1_000..)), (ROUNDS / 4, ROUNDS / 4));
    Ok(())
}

#[test]
fn counters_where_a_thread_merges() -> Result<(), Error> {
    count_in_threads(Options::new().epoch(64))
}

#[test]
fn counters_where_calls_merge() -> Result<(), Error> {
    count_in_threads(Options::new().epoch(64).merge_in_calls())
}

#[test]
fn counters_where_epochs_are_short() -> Result<(), Error> {
    count_in_threads(Options::new().epoch(4).patience(0))
}
