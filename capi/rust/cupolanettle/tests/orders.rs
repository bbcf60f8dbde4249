//! A call that ended before another began, with a lock, a channel, a join or a sequentially
//! consistent atomic between them, is seen by it, though nobody follows anybody.
use cupolanettle::{Caller, Error, Options, Store};
use std::sync::atomic::{AtomicU64, Ordering};
use std::sync::{mpsc, Mutex};
use std::thread;

const ROUNDS: u64 = 3_000;
const READERS: usize = 3;

/// No round yet.
const NONE: u64 = 0;

fn both(check: impl Fn(&Store) -> Result<(), Error>) -> Result<(), Error> {
    let options = Options::new().keys(20_000).epoch(64).patience(1);
    check(&options.open()?)?;
    check(&options.merge_in_calls().open()?)
}

/// What the writer leaves in a round: a counter, and at last a key of its own.
fn write(caller: &Caller, round: u64) -> Result<(), Error> {
    caller.add(0, 1)?;
    caller.put(round, [round, 1])?;
    Ok(())
}

/// Reads in one of all ways, once the writer has told of this round.
fn read(caller: &Caller, round: u64) -> Result<(), Error> {
    let before = caller.time();
    match round % 7 {
        0 => assert_eq!(caller.get(round), Some([round, 1].into())),
        1 => assert_eq!(caller.count(round..=round), 1),
        2 => assert_eq!(caller.page(round..=round, 9)?.rows.len(), 1),
        3 => assert_eq!(caller.range(round..=round)?.count(), 1),
        4 => assert_eq!(caller.snapshot()?.get(round), Some([round, 1].into())),
        5 => assert_eq!(caller.walk(round..=round)?.count(), 1),
        _ => assert!(caller.get(0).unwrap()[0] >= round),
    }
    assert!(caller.time() >= before);
    Ok(())
}

/// Writes and tells of each round in one thread, and reads in others what they hear of.
fn hand_over(
    store: &Store,
    tell: impl Fn(u64) + Send,
    hear: impl Fn() -> u64 + Sync,
) -> Result<(), Error> {
    let (writer, hear) = (store.caller()?, &hear);
    thread::scope(|scope| {
        let reading: Vec<_> = (0..READERS)
            .map(|_| {
                let caller = store.caller()?;
                Ok(scope.spawn(move || -> Result<(), Error> {
                    let mut heard = NONE;
                    while heard < ROUNDS {
                        heard = hear();
                        if heard > NONE {
                            read(&caller, heard)?;
                        }
                    }
                    Ok(())
                }))
            })
            .collect::<Result<_, Error>>()?;
        for round in 1..=ROUNDS {
            write(&writer, round)?;
            tell(round);
        }
        reading.into_iter().try_for_each(|thread| thread.join().unwrap())
    })
}

#[test]
fn a_lock() -> Result<(), Error> {
    both(|store| {
        let last = Mutex::new(NONE);
        hand_over(store, |round| *last.lock().unwrap() = round, || *last.lock().unwrap())
    })
}

#[test]
fn a_sequentially_consistent_atomic() -> Result<(), Error> {
    both(|store| {
        let last = AtomicU64::new(NONE);
        let tell = |round| last.store(round, Ordering::SeqCst);
        hand_over(store, tell, || last.load(Ordering::SeqCst))
    })
}

#[test]
fn a_channel() -> Result<(), Error> {
    both(|store| {
        let (sender, receiver) = mpsc::sync_channel(0);
        let (writer, reader) = (store.caller()?, store.caller()?);
        thread::scope(|scope| {
            let writing = scope.spawn(move || -> Result<(), Error> {
                for round in 1..=ROUNDS {
                    write(&writer, round)?;
                    sender.send(round).unwrap();
                }
                Ok(())
            });
            receiver.into_iter().try_for_each(|round| read(&reader, round))?;
            writing.join().unwrap()
        })
    })
}

#[test]
fn a_start_and_a_join() -> Result<(), Error> {
    both(|store| {
        let (own, mut theirs) = (store.caller()?, store.caller()?);
        for round in (1..ROUNDS / 10).step_by(2) {
            write(&own, round)?;
            let begun = thread::spawn(move || -> Result<Caller, Error> {
                read(&theirs, round)?;
                write(&theirs, round + 1)?;
                Ok(theirs)
            });
            theirs = begun.join().unwrap()?;
            read(&own, round + 1)?;
        }
        Ok(())
    })
}

/// What is seen is seen by those who hear of it, too: a thread reads what it did not write, and
/// tells.
#[test]
fn a_chain() -> Result<(), Error> {
    both(|store| {
        let (first, second) = (mpsc::sync_channel(0), mpsc::sync_channel(0));
        let callers = [store.caller()?, store.caller()?, store.caller()?];
        thread::scope(|scope| {
            let [writer, between, reader] = callers;
            let (tell, hear) = first;
            let (tell_on, hear_on) = second;
            scope.spawn(move || {
                for round in 1..=ROUNDS {
                    write(&writer, round).unwrap();
                    tell.send(round).unwrap();
                }
            });
            scope.spawn(move || {
                for round in hear {
                    tell_on.send((round, between.get(0).unwrap()[0])).unwrap();
                }
            });
            for (round, sum) in hear_on {
                assert!(reader.get(0).unwrap()[0] >= sum);
                read(&reader, round)?;
            }
            Ok(())
        })
    })
}
