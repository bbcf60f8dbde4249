//! Transactions: what one reads of its own and of others, what ends it, and that those of several
//! threads have the effect that they have one after another.
use cupolanettle::{
    Batch, Conditions, Conflict, Error, NoSeat, Options, Refused, Store, TransactError,
    Transaction, Value,
};
use std::ops::Bound;
use std::thread;

const EPOCH: usize = 64;
const THREADS: u64 = 4;
const ROUNDS: u64 = 300;

fn small() -> Options {
    Options::new().keys(10_000).epoch(EPOCH)
}

fn word(value: Option<Value>) -> u64 {
    value.map_or(0, |value| value[0])
}

#[test]
fn one_reads_what_it_wrote() -> Result<(), Error> {
    let caller = small().open()?.caller()?;
    caller.put(1, 10)?;
    caller.put(2, 20)?;
    let rows = caller.transact(|t| {
        assert_eq!(t.get(1)?, Some(10.into()));
        t.put(1, [11, 12])?;
        t.remove(2)?;
        t.put(3, 30)?;
        assert_eq!(
            t.get_many(&[1, 2, 3, 4])?,
            [Some([11, 12].into()), None, Some(30.into()), None]
        );
        assert_eq!((t.add(3, 5)?, t.add(1, 1)?, t.add(3, u64::MAX)?), (Some(35), None, None));
        assert_eq!(t.page(.., 1)?.next, Some(3));
        assert!(t.page(5..5, 9)?.rows.is_empty());
        Ok::<_, Error>(t.page(.., 9)?.rows)
    })?;
    assert_eq!(rows, [(1, [11, 12].into()), (3, 35.into())]);
    assert_eq!(caller.page(.., 9)?.rows, rows);
    Ok(())
}

#[test]
fn one_runs_again_where_others_were_faster() -> Result<(), Error> {
    let store = small().open()?;
    let (caller, other) = (store.caller()?, store.caller()?);
    let mut runs = 0;
    let read = caller.transact(|t| {
        let old = word(t.get(1)?);
        t.put(2, old)?;
        runs += 1;
        if runs < 4 {
            other.add(1, 10)?;
        }
        Ok::<_, Error>(old)
    })?;
    assert_eq!((runs, read, caller.get(2)), (4, 30, Some(30.into())));
    let mut runs = 0;
    let ended = caller.transact_up_to(3, |t| {
        runs += 1;
        assert_eq!(t.page(100..200, 9)?.rows.len(), runs - 1);
        t.put(2, 0)?;
        other.put(100 + runs as u64, 1).unwrap(); // a phantom
        Ok::<_, TransactError>(())
    });
    assert_eq!((ended, runs), (Err(TransactError::Conflict), 3));
    assert_eq!(caller.get(2), Some(30.into()));
    // One that writes nothing reads one moment, and runs once.
    let seen = caller.transact_up_to(1, |t| {
        let first = t.get(1)?;
        other.add(1, 1)?;
        Ok::<_, Error>(first == t.get_many(&[1])?[0])
    })?;
    assert!(seen);
    Ok(())
}

#[test]
fn two_of_one_caller_are_two() -> Result<(), Error> {
    let store = small().open()?;
    let caller = store.caller()?;
    let mut runs = 0;
    let sums = caller.transact(|outer| {
        runs += 1;
        let seen = word(outer.get(1)?);
        let inner = match runs {
            1 => caller.transact(|t| t.add(1, 10))?,
            _ => caller.transact(|t| t.add(2, 1))?,
        };
        assert_eq!(word(outer.get(1)?), seen);
        assert_eq!(outer.get(3)?, None);
        outer.put(3, seen)?;
        Ok::<_, Error>((seen, inner))
    })?;
    assert_eq!((runs, sums), (2, (10, Some(1))));
    assert_eq!(caller.page(.., 9)?.rows, [(1, 10.into()), (2, 1.into()), (3, 10.into())]);
    assert_eq!(store.stats().snapshots, 0);
    Ok(())
}

#[test]
fn keys_at_both_ends() -> Result<(), Error> {
    let caller = small().open()?.caller()?;
    let ends = [0, 1, u64::MAX - 1, u64::MAX];
    for key in ends {
        caller.put(key, key)?;
    }
    let above = (Bound::Excluded(u64::MAX), Bound::Unbounded);
    let rows = caller.transact(|t| {
        assert_eq!((t.page(above, 9)?.rows.len(), t.page(..0, 9)?.rows.len()), (0, 0));
        assert_eq!((t.page_down(above, 9)?.rows, t.page_down(..0, 9)?.rows), (vec![], vec![]));
        assert_eq!((t.first(above)?, t.last(..0)?), (None, None));
        assert_eq!((t.count(above)?, t.count(..0)?, t.count(..)?), (0, 0, 4));
        assert_eq!((t.page_down(.., 3)?.next, t.page_down(..=0, 0)?.next), (Some(0), Some(0)));
        assert_eq!((t.last(..)?, t.first(u64::MAX..)?), (t.first(u64::MAX..)?, t.last(1..)?));
        assert_eq!(t.page(u64::MAX.., 0)?.next, Some(u64::MAX));
        assert_eq!(t.page(1..u64::MAX, 9)?.rows.len(), 2);
        t.remove(0)?;
        t.remove(u64::MAX)?;
        assert_eq!((t.first(..)?, t.first(..=0)?), (Some((1, 1.into())), None));
        assert_eq!((t.last(..)?.map(|row| row.0), t.count(..)?), (Some(u64::MAX - 1), 2));
        assert_eq!(t.add(u64::MAX - 1, 2)?, None);
        assert_eq!(t.get_many(&[u64::MAX, u64::MAX, 1])?, [None, None, Some(1.into())]);
        Ok::<_, Error>(t.page(.., 9)?.rows)
    })?;
    assert_eq!(rows, [(1, 1.into()), (u64::MAX - 1, (u64::MAX - 1).into())]);
    let mut conditions = Conditions::new();
    conditions.count(above, 0).count(..0, 0).count(.., 2).count(u64::MAX.., 0);
    caller.batch_if(&conditions, &Batch::new())?;
    Ok(())
}

#[test]
fn an_error_writes_nothing() -> Result<(), Error> {
    let store = small().open()?;
    let caller = store.caller()?;
    let ended = caller.transact(|t| {
        t.put(1, 10)?;
        t.get(2)?;
        Err::<(), Error>(Error::Refused(Refused::Worn))
    });
    assert_eq!((ended, caller.get(1)), (Err(Error::Refused(Refused::Worn)), None));
    let panicked = thread::scope(|scope| {
        let caller = store.caller().unwrap();
        let run = move || {
            caller.transact(|t| {
                t.put(1, 10)?;
                t.get(2)?;
                assert!(t.get(1)?.is_none(), "it has a value");
                Ok::<_, Error>(())
            })
        };
        scope.spawn(run).join().is_err()
    });
    assert!(panicked && caller.get(1).is_none());
    assert_eq!(store.stats().snapshots, 0);
    Ok(())
}

#[test]
fn refusals() -> Result<(), Error> {
    let store = small().open()?;
    let caller = store.caller()?;
    let long = caller.transact(|t| (0..=EPOCH as u64).try_for_each(|key| t.put(key, 0)));
    assert_eq!((long, caller.is_empty()), (Err(TransactError::TooLong), true));
    let callers: Vec<_> = (1..64).map(|_| store.caller()).collect::<Result<_, _>>()?;
    assert_eq!(caller.transact(|t| t.get(1)), Err(TransactError::NoSeat));
    assert_eq!(caller.transact(|t| t.page_down(.., 1)), Err(TransactError::NoSeat));
    assert_eq!(caller.transact(|t| t.first(..)), Err(TransactError::NoSeat));
    assert_eq!(caller.transact(|t| t.last(..)), Err(TransactError::NoSeat));
    assert_eq!(caller.transact(|t| t.count(..)), Err(TransactError::NoSeat));
    caller.transact(|t| t.put(1, 10))?;
    drop(callers);
    assert_eq!(caller.transact(|t| t.get(1))?, Some(10.into()));
    let caller = Options::new().keys(2).epoch(4).open()?.caller()?;
    let refused = (0..1_000).find_map(|key| caller.transact(|t| t.put(key, 0)).err());
    assert_eq!(refused, Some(TransactError::Refused(Refused::RunFull)));
    Ok(())
}

#[test]
fn errors_tell_their_causes() {
    use std::error::Error as _;
    assert_eq!(Error::from(TransactError::Conflict), Error::Conflict(Conflict));
    assert_eq!(Error::from(TransactError::NoSeat), Error::NoSeat(NoSeat));
    assert_eq!(TransactError::from(NoSeat), TransactError::NoSeat);
    let refused = TransactError::Refused(Refused::Worn);
    assert_eq!(refused.source().unwrap().to_string(), Refused::Worn.to_string());
    assert!(TransactError::Conflict.source().is_none());
    for (error, text) in [
        (
            TransactError::Conflict,
            "others changed what the transaction read, each time that it ran",
        ),
        (TransactError::TooLong, "the transaction writes more keys than an epoch has writes"),
        (TransactError::Memory, "memory ran out"),
        (refused, "the transaction was refused"),
    ] {
        assert_eq!(error.to_string(), text);
    }
    assert_eq!(Error::from(Conflict).to_string(), TransactError::Conflict.to_string());
    assert_eq!(TransactError::NoSeat.to_string(), NoSeat.to_string());
}

/// Two keys of which one must stay, a counter, and a range that never has more than five keys.
fn work(store: &Store, own: u64) -> Result<(), Error> {
    let caller = store.caller()?;
    for round in 0..ROUNDS {
        caller.transact_up_to(100_000, |t| {
            let [one, other] = t.get_many(&[10, 11])?[..] else { unreachable!() };
            assert!(one.is_some() || other.is_some());
            match (one, other) {
                (Some(_), Some(_)) => t.remove(10 + (round + own) % 2)?,
                (None, _) => t.put(10, 1)?,
                (_, None) => t.put(11, 1)?,
            }
            t.add(1, 1)?;
            Ok::<_, Error>(())
        })?;
        caller.transact_up_to(100_000, |t| {
            let taken = t.page(2_000..3_000, 9)?.rows;
            assert!(taken.len() <= 5);
            match taken.last() {
                Some((key, _)) if taken.len() == 5 => t.remove(*key),
                _ => t.put(2_000 + (round * 37 + own) % 1_000, own),
            }
        })?;
    }
    Ok(())
}

fn bounds_are_kept(options: Options) -> Result<(), Error> {
    let store = options.open()?;
    let caller = store.caller()?;
    caller.put(10, 1)?;
    caller.put(11, 1)?;
    thread::scope(|scope| {
        for own in 0..THREADS {
            let store = &store;
            scope.spawn(move || work(store, own).unwrap());
        }
    });
    assert_eq!(word(caller.get(1)), THREADS * ROUNDS);
    assert!(caller.contains_key(10) || caller.contains_key(11));
    Ok(())
}

#[test]
fn bounds_where_a_thread_merges() -> Result<(), Error> {
    bounds_are_kept(small())
}

#[test]
fn bounds_where_calls_merge() -> Result<(), Error> {
    bounds_are_kept(small().merge_in_calls())
}

/// A page has the rows that there are, however many it may have, and is of one moment: it conflicts
/// with what comes into any part of it.
#[test]
fn pages_without_a_bound() -> Result<(), Error> {
    let store = small().open()?;
    let (caller, other) = (store.caller()?, store.caller()?);
    for key in 0..1_500 {
        caller.put(2 * key, key)?;
    }
    for most in [1_024, 1_025, 1_500, 1_501, 1_502, usize::MAX] {
        let page = caller.transact(|t| {
            t.remove(0)?;
            t.put(7, 70)?;
            t.put(5_001, 1)?;
            let page = t.page(.., most)?;
            t.put(7, 71)?;
            assert_eq!(t.get(7)?, Some(71.into()));
            t.remove(7)?;
            t.remove(5_001)?;
            t.put(0, 0)?;
            Ok::<_, Error>(page)
        })?;
        let rows = most.min(1_501);
        assert_eq!(page.rows.len(), rows);
        assert_eq!(page.next.is_some(), most < 1_501);
        assert!(page.rows.windows(2).all(|pair| pair[0].0 < pair[1].0));
        assert_eq!((page.rows[0], page.rows[3]), ((2, 1.into()), (7, 70.into())));
    }
    for into in [1, 2_047, 2_049, 9_999] {
        for falls in [false, true] {
            let ended = caller.transact_up_to(1, |t| {
                let page =
                    if falls { t.page_down(.., usize::MAX)? } else { t.page(.., usize::MAX)? };
                assert_eq!(page.rows.len(), 1_500);
                t.put(3, 30)?;
                other.put(into, 1).map_err(TransactError::from)
            });
            assert_eq!(ended, Err(TransactError::Conflict));
            other.remove(into)?;
        }
    }
    Ok(())
}

#[test]
fn pages_by_falling_key() -> Result<(), Error> {
    let caller = small().open()?.caller()?;
    for key in 0..1_500 {
        caller.put(2 * key, key)?;
    }
    for most in [0, 1, 1_024, 1_025, 1_499, 1_500, usize::MAX] {
        let (down, mut up) = caller.transact(|t| {
            t.remove(2_998)?;
            t.put(7, 70)?;
            let (down, up) = (t.page_down(.., most)?, t.page(.., usize::MAX)?);
            assert_eq!(t.page_down(..=down.next.unwrap_or(0), 0)?.next, down.next.or(Some(0)));
            t.remove(7)?;
            t.put(2_998, 1_499)?;
            Ok::<_, Error>((down, up))
        })?;
        up.rows.reverse();
        assert_eq!(down.rows, up.rows[..most.min(1_500)]);
        assert_eq!(down.next, up.rows.get(most).map(|row| row.0));
    }
    Ok(())
}

/// What one of these has read, and what it has not: whether a write of the key is a conflict.
#[test]
fn ranges_are_read_as_far_as_they_are_looked_at() -> Result<(), Error> {
    type Look = fn(&mut Transaction<'_>) -> Result<(), TransactError>;
    let looks: [(Look, [u64; 4]); 5] = [
        (|t| t.first(10..).map(drop), [10, 11, 15, 20]),
        (|t| t.last(..=50).map(drop), [40, 41, 45, 50]),
        (|t| t.page_down(..=50, 1).map(drop), [30, 40, 41, 50]),
        (|t| t.count(15..=45).map(drop), [15, 25, 31, 45]),
        (|t| t.put(30, 3).and(t.count(15..=45)).map(drop), [15, 25, 30, 45]),
    ];
    let store = small().open()?;
    let (caller, other) = (store.caller()?, store.caller()?);
    for (look, conflicts) in looks {
        for key in [9, 10, 11, 14, 15, 20, 25, 30, 31, 40, 41, 45, 50, 51] {
            caller.clear()?;
            for old in [20, 30, 40] {
                caller.put(old, 1)?;
            }
            other.follow(caller.seen()).unwrap();
            let ended = caller.transact_up_to(1, |t| {
                look(t)?;
                t.put(100, 1)?;
                other.put(key, 2).map(drop).map_err(TransactError::from)
            });
            let is_read = (conflicts[0]..=conflicts[3]).contains(&key);
            let counts = conflicts[1] == 25;
            let is_same = counts && [20, 30, 40].contains(&key) && !conflicts.contains(&key);
            assert_eq!(ended == Err(TransactError::Conflict), is_read && !is_same, "{key}");
        }
    }
    Ok(())
}
