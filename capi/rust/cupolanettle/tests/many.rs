//! Many keys at one time: reads of several keys, batches with conditions, rows by falling key; and
//! that what is read and what is written for it stand at one moment, whatever other threads do.
use cupolanettle::{
    Batch, BatchIfError, Caller, Conditions, Error, Options, Refused, Snapshot, Store, Value,
};
use std::thread;

const EPOCH: usize = 64;
const ACCOUNTS: u64 = 8;
const EACH: u64 = 100;
const THREADS: u64 = 4;
const ROUNDS: u64 = 500;

fn small() -> Options {
    Options::new().keys(10_000).epoch(EPOCH)
}

fn word(value: Option<Value>) -> u64 {
    value.map_or(0, |value| value[0])
}

// ---- reads of several keys

#[test]
fn values_stand_at_the_places_of_their_keys() -> Result<(), Error> {
    let store = small().open()?;
    let caller = store.caller()?;
    caller.put(1, 10)?;
    caller.put(2, [20, 21])?;
    let wanted = [None, Some(10.into()), Some([20, 21].into()), Some(10.into())];
    assert_eq!(caller.get_many(&[3, 1, 2, 1])?, wanted);
    assert_eq!(caller.time(), caller.seen());
    assert_eq!(caller.get_array([3, 1, 2, 1]), wanted);
    let snapshot = caller.snapshot()?;
    caller.remove(1)?;
    assert_eq!(snapshot.get_many(&[3, 1, 2, 1])?, wanted);
    assert_eq!(snapshot.get_array([3, 1, 2, 1]), wanted);
    assert_eq!(caller.get_array([1, 2]), [None, Some([20, 21].into())]);
    assert!(caller.get_many(&[])?.is_empty() && snapshot.get_many(&[])?.is_empty());
    assert_eq!(caller.get_array([]), []);
    Ok(())
}

#[test]
fn many_are_read_in_parts() -> Result<(), Error> {
    let caller = small().open()?.caller()?;
    let keys: Vec<u64> = (0..1_000).map(|key| key * 7 % 1_000).collect();
    for key in (0..1_000).filter(|key| key % 3 > 0) {
        caller.put(key, key)?;
    }
    let snapshot = caller.snapshot()?;
    caller.remove_range(..)?;
    let wanted: Vec<_> = keys.iter().map(|&key| (key % 3 > 0).then(|| key.into())).collect();
    assert_eq!(snapshot.get_many(&keys)?, wanted);
    assert!(caller.get_many(&keys)?.iter().all(Option::is_none));
    Ok(())
}

// ---- batches with conditions

#[test]
fn a_batch_is_written_if_all_holds() -> Result<(), Error> {
    let caller = small().open()?.caller()?;
    caller.put(1, 10)?;
    let before = caller.seen();
    let mut conditions = Conditions::new();
    conditions.has(1, 10).has_none(2).still(3, None).count(..5, 1).count(2.., 0);
    assert_eq!(conditions.len(), 5);
    let mut batch = Batch::new();
    batch.set(2, 20).remove(1);
    let time = caller.batch_if(&conditions, &batch)?;
    assert!(
        time >= before && caller.time() == time && u64::from(caller.seen()) == u64::from(time) + 2
    );
    assert_eq!(caller.get_array([1, 2]), [None, Some(20.into())]);
    match caller.batch_if(&conditions, &batch) {
        Err(BatchIfError::Unmet(unmet)) => {
            assert_eq!((unmet.index, unmet.time), (0, caller.time()));
        }
        other => panic!("{other:?}"),
    }
    assert_eq!(caller.time(), caller.seen());
    Ok(())
}

#[test]
fn the_first_that_does_not_hold_is_told() -> Result<(), Error> {
    let caller = small().open()?.caller()?;
    caller.put(1, [10, 11])?;
    let index = |conditions: &Conditions| match caller.batch_if(conditions, &Batch::new()) {
        Ok(_) => None,
        Err(BatchIfError::Unmet(unmet)) => Some(unmet.index),
        Err(other) => panic!("{other:?}"),
    };
    assert_eq!(index(&Conditions::new()), None);
    assert_eq!(index(Conditions::new().has(1, [10, 11])), None);
    assert_eq!(index(Conditions::new().has(1, 10)), Some(0));
    assert_eq!(index(Conditions::new().has(1, [10, 11]).has(1, [10, 11, 0])), Some(1));
    assert_eq!(index(Conditions::new().count(.., 1).has_none(1)), Some(0));
    assert_eq!(index(Conditions::new().count(.., 2).has(1, [10, 11])), Some(1));
    assert_eq!(index(Conditions::new().count(.., 1).count(2..2, 0).count(1..=1, 0)), Some(2));
    let mut conditions = Conditions::new();
    conditions.has(1, 5).count(3..=4, 0);
    assert_eq!(format!("{conditions:?}"), "[(1, Some([5])), (3..=4, 0)]");
    conditions.clear();
    assert!(conditions.is_empty() && conditions.clone().has_none(1).len() == 1);
    Ok(())
}

#[test]
fn what_is_refused_is_not_written() -> Result<(), Error> {
    let caller = small().open()?.caller()?;
    let long: Batch = (0..=EPOCH as u64).map(|key| (key, key)).collect();
    let none = Conditions::new();
    assert_eq!(caller.batch_if(&none, &long), Err(BatchIfError::TooLong));
    assert!(caller.is_empty());
    let caller = Options::new().keys(2).epoch(4).open()?.caller()?;
    let fresh = |key| caller.batch_if(Conditions::new().has_none(key), Batch::new().set(key, 0));
    let refused = (0..1_000).find_map(|key| fresh(key).err());
    assert_eq!(refused, Some(BatchIfError::Refused(Refused::RunFull)));
    caller.batch_if(Conditions::new().has(0, 0), Batch::new().set(0, 1))?;
    let snapshot = caller.snapshot()?;
    let old = |_| caller.batch_if(Conditions::new().has(0, 1), Batch::new().set(0, 1));
    let refused = (0..1_000).find_map(|turn| old(turn).err());
    assert_eq!(refused, Some(BatchIfError::Refused(Refused::OwnSnapshot)));
    drop(snapshot);
    old(0)?;
    Ok(())
}

#[test]
fn errors_tell_their_causes() {
    use std::error::Error as _;
    let caller = small().open().unwrap().caller().unwrap();
    let error = caller.batch_if(Conditions::new().has(1, 1), &Batch::new()).unwrap_err();
    assert_eq!(error.to_string(), "a condition of the batch does not hold");
    assert_eq!(error.source().unwrap().to_string(), "condition 0 of the batch does not hold");
    assert_eq!(Error::from(error).to_string(), "condition 0 of the batch does not hold");
    assert!(Error::from(error).source().is_none() && BatchIfError::Memory.source().is_none());
    let refused = BatchIfError::Refused(Refused::Worn);
    assert_eq!(Error::from(refused), Error::Refused(Refused::Worn));
    assert_eq!(refused.to_string(), "the batch was refused");
    assert_eq!(refused.source().unwrap().to_string(), Refused::Worn.to_string());
    assert_eq!(BatchIfError::TooLong.to_string(), "the batch has more writes than an epoch");
    assert_eq!(BatchIfError::Memory.to_string(), "memory ran out");
}

// ---- rows by falling key

type Rows = Vec<(u64, Value)>;

fn filled() -> Result<(Store, Caller, Rows), Error> {
    let store = small().open()?;
    let caller = store.caller()?;
    for key in 0..700 {
        caller.put(3 * key, key)?;
    }
    caller.retain(.., |key, _| key % 7 > 0)?;
    let rows = caller.page(.., usize::MAX)?.rows;
    Ok((store, caller, rows))
}

#[test]
fn pages_downwards_are_those_upwards_turned() -> Result<(), Error> {
    let (_store, caller, mut rows) = filled()?;
    assert_eq!(caller.first_key_value()?, rows.first().copied());
    assert_eq!(caller.last_key_value()?, rows.last().copied());
    rows.reverse();
    let snapshot = caller.snapshot()?;
    for most in [1, 64, 65, 513, 10_000] {
        let (mut found, mut next) = (Vec::new(), Some(u64::MAX));
        while let Some(last) = next {
            let page = snapshot.page_down(..=last, most)?;
            found.extend(page.rows);
            next = page.next;
        }
        assert_eq!(found, rows);
    }
    assert_eq!(caller.page_down(.., usize::MAX)?.rows, rows);
    let page = caller.page_down(100..=200, 3)?;
    assert_eq!(page.rows.iter().map(|row| row.0).collect::<Vec<_>>(), [198, 195, 192]);
    assert_eq!((page.next, caller.page_down(5..5, 3)?.next), (Some(186), None));
    caller.remove(rows[0].0)?;
    assert_eq!(snapshot.last_key_value()?, Some(rows[0]));
    assert_eq!(caller.last_key_value()?, Some(rows[1]));
    Ok(())
}

/// Takes from both ends, as the seed says, and puts the two together.
fn both_ends(snapshot: &Snapshot, mut seed: u64) -> Rows {
    let mut rows = snapshot.iter();
    let (mut front, mut back) = (Vec::new(), Vec::new());
    loop {
        seed = seed.wrapping_mul(6_364_136_223_846_793_005).wrapping_add(1_442_695_040_888_963_407);
        let (from, into) = match seed >> 60 {
            0..=6 => (rows.next(), &mut front),
            _ => (rows.next_back(), &mut back),
        };
        let Some(row) = from else { break };
        into.push(row.unwrap());
    }
    assert!(rows.next().is_none() && rows.next_back().is_none());
    assert_eq!(rows.size_hint(), (0, Some(0)));
    front.extend(back.into_iter().rev());
    front
}

#[test]
fn ranges_have_two_ends() -> Result<(), Error> {
    let (store, caller, rows) = filled()?;
    let snapshot = store.snapshot()?;
    for seed in 0..20 {
        assert_eq!(both_ends(&snapshot, seed), rows);
    }
    let turned = caller.range(..)?.rev().collect::<Result<Vec<_>, _>>()?;
    assert!(turned.iter().eq(rows.iter().rev()));
    let some = snapshot.range(10..=30).rev().map(|row| row.unwrap().0).collect::<Vec<_>>();
    assert_eq!(some, [30, 27, 24, 18, 15, 12]);
    assert!(snapshot.range(5..5).next_back().is_none());
    assert!(snapshot.range(10..20).rev().rev().map(|row| row.unwrap().0).eq([12, 15, 18]));
    Ok(())
}

// ---- in threads

fn transfer(caller: &Caller, from: u64, to: u64, amount: u64) -> Result<(), Error> {
    let [source, target] = caller.get_array([from, to]);
    if word(source) < amount {
        return Ok(());
    }
    let mut read = Conditions::new();
    read.still(from, source).still(to, target);
    let mut batch = Batch::new();
    batch.set(from, word(source) - amount).set(to, word(target) + amount);
    match caller.batch_if(&read, &batch) {
        Ok(_) | Err(BatchIfError::Unmet(_)) => Ok(()),
        Err(refused) => Err(refused.into()),
    }
}

/// A range that never has more than five keys: each counts, and writes one if there is room.
fn take_seat(caller: &Caller, key: u64) -> Result<(), Error> {
    let keys = caller.count(2_000..3_000);
    assert!(keys <= 5);
    if keys == 5 {
        let row = caller.page_down(2_000..3_000, 1)?.rows;
        caller.remove(row.first().map_or(2_000, |row| row.0))?;
        return Ok(());
    }
    let mut counted = Conditions::new();
    counted.has_none(2_000 + key).count(2_000..3_000, keys);
    match caller.batch_if(&counted, Batch::new().set(2_000 + key, 1)) {
        Ok(_) | Err(BatchIfError::Unmet(_)) => Ok(()),
        Err(refused) => Err(refused.into()),
    }
}

fn sum(values: &[Option<Value>]) -> u64 {
    values.iter().map(|value| word(*value)).sum()
}

fn moves(options: Options) -> Result<(), Error> {
    let store = options.open()?;
    let accounts: Vec<u64> = (0..ACCOUNTS).collect();
    store.caller()?.batch(&accounts.iter().map(|&key| (key, EACH)).collect())?;
    thread::scope(|scope| {
        for own in 0..THREADS {
            let (store, accounts) = (&store, &accounts);
            scope.spawn(move || {
                let caller = store.caller().unwrap();
                for round in 0..ROUNDS {
                    let seed = (round * THREADS + own) * 31;
                    let (from, by) = (seed % ACCOUNTS, 1 + seed / ACCOUNTS % (ACCOUNTS - 1));
                    transfer(&caller, from, (from + by) % ACCOUNTS, seed % EACH).unwrap();
                    take_seat(&caller, seed % 900).unwrap();
                    assert_eq!(sum(&caller.get_many(accounts).unwrap()), ACCOUNTS * EACH);
                    if round % 20 == 0 {
                        let snapshot = store.snapshot().unwrap();
                        assert_eq!(sum(&snapshot.get_many(accounts).unwrap()), ACCOUNTS * EACH);
                    }
                }
            });
        }
    });
    assert_eq!(sum(&store.caller()?.get_many(&accounts)?), ACCOUNTS * EACH);
    Ok(())
}

#[test]
fn moves_where_a_thread_merges() -> Result<(), Error> {
    moves(small())
}

#[test]
fn moves_where_calls_merge() -> Result<(), Error> {
    moves(small().merge_in_calls())
}
