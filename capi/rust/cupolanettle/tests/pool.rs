//! Pools: more threads than seats, whose times never run back.
use cupolanettle::{Error, NoSeat, Options, Pool, PooledCaller, Refused, Store, Time};
use std::panic::{self, RefUnwindSafe, UnwindSafe};
use std::sync::atomic::{AtomicUsize, Ordering};
use std::sync::{Barrier, Mutex};
use std::time::Duration;
use std::{mem, thread};

const SEATS: usize = 64;
const THREADS: u64 = 200;
const CALLERS: usize = 8;
const ROUNDS: u64 = 50;
/// The key that all threads write; each thread's own is below it.
const SHARED: u64 = 1_000;

fn small() -> Result<Store, Error> {
    Ok(Options::new().keys(2_000).epoch(64).open()?)
}

#[test]
fn kinds() {
    fn is_shared<T: Send + Sync + UnwindSafe + RefUnwindSafe + 'static>() {}
    fn is_send<T: Send + UnwindSafe + RefUnwindSafe>() {}
    is_shared::<Pool>();
    is_send::<PooledCaller<'_>>();
}

/// Takes a caller again and again. No time of this thread runs back, nor behind what any thread
/// had seen as it gave its caller back.
fn work(pool: &Pool, own: u64, taken: &AtomicUsize, given_back: &Mutex<Time>) {
    let mut last = Time::ZERO;
    for round in 0..ROUNDS {
        let others_saw = *given_back.lock().unwrap();
        let caller = pool.take();
        assert!(taken.fetch_add(1, Ordering::SeqCst) < CALLERS);
        assert!(caller.seen() >= last.max(others_saw));
        assert_eq!(caller.get(own).map(|value| value[0]), round.checked_sub(1));
        assert!(caller.time() >= last);
        caller.put(own, round).unwrap();
        caller.add(SHARED, 1).unwrap();
        last = caller.seen();
        taken.fetch_sub(1, Ordering::SeqCst);
        drop(caller);
        let mut seen = given_back.lock().unwrap();
        *seen = last.max(*seen);
    }
}

#[test]
fn more_threads_than_seats() -> Result<(), Error> {
    let store = small()?;
    let pool = store.pool(CALLERS)?;
    let (taken, given_back) = (AtomicUsize::new(0), Mutex::new(Time::ZERO));
    let all_are_here = Barrier::new(200);
    thread::scope(|scope| {
        let (pool, all_are_here) = (&pool, &all_are_here);
        let (taken, given_back) = (&taken, &given_back);
        for own in 0..THREADS {
            scope.spawn(move || {
                all_are_here.wait();
                work(pool, own, taken, given_back);
            });
        }
    });
    assert_eq!((pool.callers(), pool.idle_callers()), (CALLERS, CALLERS));
    let caller = pool.take();
    assert_eq!(caller.get(SHARED), Some((THREADS * ROUNDS).into()));
    assert_eq!(caller.count(..SHARED), THREADS);
    Ok(())
}

#[test]
fn one_caller_for_all_threads() -> Result<(), Error> {
    let pool = small()?.pool(1)?;
    let caller = pool.take();
    thread::scope(|scope| {
        for _ in 0..THREADS {
            scope.spawn(|| pool.take().add(SHARED, 1).unwrap());
        }
        caller.put(SHARED, 1_000).unwrap();
        drop(caller);
    });
    assert_eq!(pool.take().get(SHARED), Some((1_000 + THREADS).into()));
    Ok(())
}

#[test]
fn a_caller_follows_all_that_were_given_back() -> Result<(), Error> {
    let pool = small()?.pool(3)?;
    let (writer, reader, idle) = (pool.take(), pool.take(), pool.take());
    let written = writer.put(1, 10)?;
    assert_eq!((reader.seen(), idle.seen()), (Time::ZERO, Time::ZERO));
    drop(writer);
    // It was taken before, and follows once it is taken again.
    assert_eq!(idle.seen(), Time::ZERO);
    drop(idle);
    drop(reader);
    let taken = [pool.take(), pool.take(), pool.take()];
    for caller in &taken {
        assert!(caller.seen() > written);
        assert_eq!(caller.get(1), Some(10.into()));
    }
    Ok(())
}

#[test]
fn no_caller_is_left() -> Result<(), Error> {
    let pool = small()?.pool(2)?;
    let (one, other) = (pool.try_take(), pool.take_timeout(Duration::ZERO));
    assert!(one.is_some() && other.is_some());
    assert_eq!(pool.idle_callers(), 0);
    assert!(pool.try_take().is_none());
    assert!(pool.take_timeout(Duration::ZERO).is_none());
    assert!(pool.take_timeout(Duration::from_nanos(1)).is_none());
    drop(one);
    assert_eq!(pool.idle_callers(), 1);
    assert!(pool.take_timeout(Duration::MAX).is_some());
    assert!(pool.try_take().is_some());
    Ok(())
}

/// A thread that waits without an end is woken.
#[test]
fn who_waits_for_long_is_woken() -> Result<(), Error> {
    let pool = small()?.pool(1)?;
    let caller = pool.take();
    thread::scope(|scope| {
        let waiting = scope.spawn(|| pool.take_timeout(Duration::MAX).is_some());
        caller.put(1, 10).unwrap();
        drop(caller);
        assert!(waiting.join().unwrap());
    });
    Ok(())
}

#[test]
fn a_panic_gives_the_caller_back() -> Result<(), Error> {
    let store = small()?;
    let pool = store.pool(2)?;
    for round in 0..100 {
        let ended = thread::scope(|scope| {
            scope
                .spawn(|| {
                    let caller = pool.take();
                    let _snapshot = caller.snapshot().unwrap();
                    caller.put(1, round).unwrap();
                    panic::resume_unwind(Box::new(round));
                })
                .join()
        });
        assert!(ended.is_err());
        assert_eq!(pool.idle_callers(), 2);
        assert_eq!(pool.take().get(1), Some(round.into()));
    }
    assert_eq!(store.stats().snapshots, 0);
    Ok(())
}

#[test]
fn seats() -> Result<(), Error> {
    let store = small()?;
    assert_eq!(store.pool(SEATS + 1).err(), Some(NoSeat));
    let pool = store.pool(SEATS)?;
    let caller = pool.take();
    assert_eq!(caller.snapshot().err(), Some(NoSeat));
    assert_eq!(store.pool(1).err(), Some(NoSeat));
    caller.put(1, 10)?;
    drop(caller);
    assert_eq!(store.stats().callers, SEATS as u64);
    drop(pool);
    assert_eq!(store.stats().callers, 0);
    let pool = store.pool(SEATS - 1)?;
    assert_eq!(pool.take().snapshot()?.get(1), Some(10.into()));
    Ok(())
}

/// A pool keeps its store, and a snapshot may outlive its piece of work.
#[test]
fn what_outlives_what() -> Result<(), Error> {
    let pool = Options::new().keys(16).epoch(4).open()?.pool(1)?;
    pool.take().put(1, 10)?;
    let snapshot = pool.take().snapshot()?;
    let refused = (0..500).find_map(|word| pool.take().put(1, word).err());
    assert_eq!(refused, Some(Refused::OwnSnapshot));
    assert_eq!(snapshot.get(1), Some(10.into()));
    drop(snapshot);
    pool.take().put(1, 11)?;
    assert_eq!(pool.take().get(1), Some(11.into()));
    Ok(())
}

#[test]
fn a_caller_that_is_forgotten_is_gone() -> Result<(), Error> {
    let pool = small()?.pool(2)?;
    mem::forget(pool.take());
    assert_eq!((pool.callers(), pool.idle_callers()), (2, 1));
    pool.take().put(1, 10)?;
    let shown = format!("{pool:?} {:?}", pool.take());
    assert!(shown.starts_with("Pool { callers: 2, idle_callers: 0, .. } PooledCaller(Caller {"));
    Ok(())
}

#[test]
#[should_panic(expected = "a pool has one caller at least")]
fn a_pool_of_no_caller() {
    _ = small().unwrap().pool(0);
}
