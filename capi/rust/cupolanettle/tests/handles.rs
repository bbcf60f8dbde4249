//! Handles: how many there are, in which order they are dropped, and where they go.
use cupolanettle::{
    Batch, Caller, Error, NoSeat, Options, Range, Snapshot, Statistics, Store, Value, Walk,
};
use std::collections::BTreeSet;
use std::panic::{self, RefUnwindSafe, UnwindSafe};
use std::{mem, thread};

const SEATS: usize = 64;

fn small() -> Result<Store, Error> {
    Ok(Options::new().keys(1_000).epoch(64).open()?)
}

/// As many callers as there are, and that there is no other.
fn all_callers(store: &Store) -> Vec<Caller> {
    let callers: Vec<_> = (0..SEATS).map_while(|_| store.caller().ok()).collect();
    assert_eq!(store.caller().err(), store.snapshot().err());
    callers
}

#[test]
fn kinds() {
    fn is_send<T: Send + 'static>() {}
    fn is_shared<T: Send + Sync + Clone + 'static>() {}
    is_shared::<Store>();
    is_shared::<Value>();
    is_shared::<Error>();
    is_shared::<Statistics>();
    is_send::<Caller>();
    is_send::<Snapshot>();
    is_send::<Range<Snapshot>>();
}

/// A panic leaves each of them whole: no function of a user's runs in a call of the library.
#[test]
fn unwinding() {
    fn is_unwind_safe<T: UnwindSafe + RefUnwindSafe>() {}
    is_unwind_safe::<Options>();
    is_unwind_safe::<Store>();
    is_unwind_safe::<Caller>();
    is_unwind_safe::<Snapshot>();
    is_unwind_safe::<Range<Snapshot>>();
    is_unwind_safe::<Range<&Snapshot>>();
    is_unwind_safe::<Walk<'_>>();
    is_unwind_safe::<Statistics>();
    is_unwind_safe::<Batch>();
    is_unwind_safe::<Value>();
    is_unwind_safe::<Error>();
}

#[test]
fn the_65th_seat_is_refused() -> Result<(), Error> {
    let store = small()?;
    let mut callers = all_callers(&store);
    assert_eq!(callers.len(), SEATS);
    let numbers: BTreeSet<_> = callers.iter().map(Caller::number).collect();
    assert!(numbers.into_iter().eq(0..SEATS));
    assert_eq!(callers[0].snapshot().map(drop), Err(NoSeat));
    assert_eq!(store.snapshot().map(drop), Err(NoSeat));
    assert!(callers[0].range(..).is_err());
    callers.pop();
    let snapshot = callers[0].snapshot()?;
    assert!(store.caller().is_err());
    drop(snapshot);
    store.caller()?;
    Ok(())
}

#[test]
fn spare_seats_are_found() -> Result<(), Error> {
    let store = small()?;
    let callers: Vec<_> = (0..SEATS / 2).map(|_| store.caller()).collect::<Result<_, _>>()?;
    for caller in &callers {
        caller.snapshot()?;
    }
    let others: Vec<_> = (0..SEATS / 2).map(|_| store.caller()).collect::<Result<_, _>>()?;
    assert_eq!(callers[0].snapshot().map(drop), Err(NoSeat));
    assert_eq!(store.caller().map(drop), Err(NoSeat));
    drop(others);
    callers[0].snapshot()?;
    Ok(())
}

#[test]
fn ten_thousand_callers_in_turn() -> Result<(), Error> {
    let store = small()?;
    for round in 0..10_000_u64 {
        let caller = store.caller()?;
        assert_eq!(caller.get(1), round.checked_sub(1).map(Value::from));
        caller.put(1, round)?;
        if round % 3 == 0 {
            assert_eq!(caller.snapshot()?.get(1), Some(round.into()));
        }
    }
    assert_eq!(all_callers(&store).len(), SEATS);
    Ok(())
}

/// Opens callers in turn, each of which outlives the one before in its snapshot.
fn open_in_turn(store: &Store, own: u64) -> Result<(), Error> {
    for round in 0..2_500_u64 {
        let caller = store.caller()?;
        assert_eq!(caller.get(own), round.checked_sub(1).map(Value::from));
        caller.put(own, round)?;
        let snapshot = caller.snapshot()?;
        drop(caller);
        assert_eq!(snapshot.get(own), Some(round.into()));
    }
    Ok(())
}

#[test]
fn callers_in_turn_of_four_threads() -> Result<(), Error> {
    // Room for each version, however long a snapshot stays open.
    let store = Options::new().keys(10_000).epoch(64).open()?;
    thread::scope(|scope| {
        let store = &store;
        let threads: Vec<_> =
            (0..4).map(|own| scope.spawn(move || open_in_turn(store, own))).collect();
        threads.into_iter().try_for_each(|thread| thread.join().unwrap())
    })?;
    assert_eq!(all_callers(&store).len(), SEATS);
    Ok(())
}

#[test]
fn a_caller_is_dropped_beside_its_snapshot() -> Result<(), Error> {
    let store = small()?;
    let caller = store.caller()?;
    caller.put(1, 10)?;
    let snapshot = caller.snapshot()?;
    let rows = caller.range(..)?;
    caller.put(1, 11)?;
    let seen = caller.seen();
    drop(caller);
    let next = store.caller()?;
    assert!(next.seen() >= seen);
    assert_eq!(next.get(1), Some(11.into()));
    next.put(1, 12)?;
    assert_eq!(snapshot.get(1), Some(10.into()));
    assert_eq!(rows.collect::<Result<Vec<_>, _>>()?, [(1, 10.into())]);
    drop(snapshot);
    assert_eq!(all_callers(&store).len(), SEATS - 1);
    Ok(())
}

#[test]
fn handles_are_dropped_in_any_order() -> Result<(), Error> {
    const ORDERS: [[usize; 4]; 24] = {
        let mut orders = [[0; 4]; 24];
        let mut at = 0;
        let mut code = 0;
        while code < 256 {
            let order = [code & 3, code >> 2 & 3, code >> 4 & 3, code >> 6];
            let all = 1 << order[0] | 1 << order[1] | 1 << order[2] | 1 << order[3];
            if all == 15 {
                orders[at] = order;
                at += 1;
            }
            code += 1;
        }
        orders
    };
    for order in ORDERS {
        let store = small()?;
        let caller = store.caller()?;
        caller.put(1, 10)?;
        let snapshot = caller.snapshot()?;
        let rows = caller.range(..)?;
        let mut store = Some(store);
        let mut caller = Some(caller);
        let mut snapshot = Some(snapshot);
        let mut rows = Some(rows);
        for which in order {
            match which {
                0 => drop(store.take()),
                1 => drop(caller.take()),
                2 => drop(snapshot.take()),
                _ => drop(rows.take()),
            }
            if let Some(caller) = &caller {
                caller.put(2, 20)?;
            }
            if let Some(snapshot) = &snapshot {
                assert_eq!(snapshot.count(..), 1);
            }
            if let Some(store) = &store {
                assert_eq!(store.snapshot()?.get(1), Some(10.into()));
            }
        }
    }
    Ok(())
}

#[test]
fn a_caller_needs_its_store_no_more() -> Result<(), Error> {
    let caller = small()?.caller()?;
    for key in 0..10_000 {
        caller.put(key % 500, key)?;
    }
    assert_eq!(caller.count(..), 500);
    Ok(())
}

#[test]
fn what_is_forgotten_keeps_its_seat() -> Result<(), Error> {
    let store = small()?;
    let caller = store.caller()?;
    caller.put(1, 10)?;
    mem::forget(caller.snapshot()?);
    mem::forget(caller.range(..)?);
    mem::forget(store.snapshot()?);
    mem::forget(caller);
    let caller = store.caller()?;
    caller.put(1, 11)?;
    assert_eq!(caller.get(1), Some(11.into()));
    drop(caller);
    assert_eq!(all_callers(&store).len(), SEATS - 4);
    Ok(())
}

#[test]
fn a_thread_that_panics_gives_its_seats_back() -> Result<(), Error> {
    let store = small()?;
    for round in 0..100 {
        let caller = store.caller()?;
        let ended = thread::spawn(move || {
            let _snapshot = caller.snapshot().unwrap();
            caller.put(1, round).unwrap();
            panic::resume_unwind(Box::new(round));
        })
        .join();
        assert!(ended.is_err());
        assert_eq!(store.snapshot()?.get(1), Some(round.into()));
    }
    assert_eq!(all_callers(&store).len(), SEATS);
    Ok(())
}

#[test]
fn an_iterator_is_left_half_way() -> Result<(), Error> {
    let store = small()?;
    let caller = store.caller()?;
    for key in 0..200 {
        caller.put(key, key)?;
    }
    for round in 0..200 {
        let mut rows = caller.range(..)?;
        assert_eq!(rows.by_ref().take(round).count(), round);
        caller.put(round as u64, 1_000)?;
        caller.put(round as u64, round as u64)?;
        assert!(rows.take(5).all(|row| row.is_ok_and(|(key, value)| value[0] == key)));
    }
    let mut rows = caller.range(198..)?;
    assert_eq!(rows.by_ref().count(), 2);
    assert!(rows.next().is_none());
    Ok(())
}

#[test]
fn no_seat_is_an_error() {
    let store = small().unwrap();
    let _callers = all_callers(&store);
    assert_eq!(store.caller().map(drop), Err(NoSeat));
    assert_eq!(Error::from(NoSeat), Error::NoSeat(NoSeat));
    assert_eq!(Error::from(NoSeat).to_string(), NoSeat.to_string());
}
