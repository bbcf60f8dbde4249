//! A stream processor: counts events by window of time and by name, each event once.
//!
//!     cargo run --offline --example stream
//!
//! Events come in four logs, each written by a thread. Workers take the next events of a log, add
//! them to their windows, and write how far the log is counted: all of that in one transaction.
//! If a worker dies in between, nothing of its transaction is there, and another one goes on where
//! it began. If two count the same events, one comes to a conflict, and begins behind them.
//!
//!     log        0, 8 bits | number of the log, 8 bits | place in it, 48 bits   -> time, name
//!     progress   1, 8 bits | number of the log, 56 bits   -> next place, latest time, late events
//!     windows    2, 8 bits | window, 40 bits | name, 16 bits   -> count
//!     totals     3, 8 bits | name, 56 bits   -> count
use cupolanettle::{Caller, Error, Options, Store, Transaction, Value};
use std::panic::resume_unwind;
use std::thread;

const LOGS: u64 = 4;
const THREADS: u64 = 4;
const EVENTS: u64 = 400; // of each log
const NAMES: u64 = 3;
const TOGETHER: u64 = 16; // events of a transaction, at most
const WIDTH: u64 = 100; // of a window, in time
const SLACK: u64 = 120; // so much an event may be late

const LOG: u64 = 0;
const PROGRESS: u64 = 1 << 56;
const WINDOWS: u64 = 2 << 56;
const TOTALS: u64 = 3 << 56;

/// Writes a log. Its times rise, but some events are late, and a few too late.
fn produce(store: &Store, log: u64) -> Result<(), Error> {
    let caller = store.caller()?;
    for place in 0..EVENTS {
        let late = if place % 50 == 49 { 300 } else { 20 * (place % 3) };
        let event = [(10 * place).saturating_sub(late), (place + log) % NAMES];
        caller.put(LOG | log << 48 | place, event)?;
    }
    Ok(())
}

/// The first window that takes events of a log when the log has come to this time.
fn first_open(latest: u64) -> u64 {
    latest.saturating_sub(SLACK) / WIDTH
}

fn progress_of(row: Option<Value>) -> [u64; 3] {
    row.map_or([0; 3], |row| [row[0], row[1], row[2]])
}

/// Counts the next events of a log, in a transaction. It reads them outside of that: a log's rows
/// never change, so it comes to no conflict with the thread that writes them.
fn count(caller: &Caller, rows: &mut Transaction<'_>, log: u64) -> Result<(), Error> {
    let [mut place, mut latest, mut late] = progress_of(rows.get(PROGRESS | log)?);
    let next: Vec<u64> = (place..place + TOGETHER).map(|place| LOG | log << 48 | place).collect();
    for event in caller.get_many(&next)?.into_iter().map_while(|event| event) {
        let (time, name) = (event[0], event[1]);
        if time / WIDTH < first_open(latest) {
            late += 1;
        } else {
            rows.add(WINDOWS | (time / WIDTH) << 16 | name, 1)?;
            rows.add(TOTALS | name, 1)?;
        }
        (place, latest) = (place + 1, latest.max(time));
    }
    rows.put(PROGRESS | log, [place, latest, late])?;
    Ok(())
}

fn progress(caller: &Caller) -> Vec<[u64; 3]> {
    (0..LOGS).map(|log| progress_of(caller.get(PROGRESS | log))).collect()
}

/// Removes the windows that are closed for all logs. No worker counts there any more: it would
/// have read an older progress, and come to a conflict.
fn expire(caller: &Caller) -> Result<(), Error> {
    let closed = progress(caller).iter().map(|[_, latest, _]| first_open(*latest)).min();
    caller.remove_range(WINDOWS..WINDOWS | closed.unwrap_or(0) << 16)?;
    Ok(())
}

/// Counts events of one log after another, and panics in the middle of a transaction.
fn work(store: &Store, own: u64) -> Result<(), Error> {
    let caller = store.caller()?;
    for turn in own..3 * own + 8 {
        caller.transact(|rows| count(&caller, rows, turn % LOGS))?;
        expire(&caller)?;
    }
    caller.transact(|rows| {
        count(&caller, rows, own)?;
        resume_unwind(Box::new("the worker dies"))
    })
}

fn main() -> Result<(), Error> {
    let store = Options::new().open()?;
    let caller = store.caller()?;
    thread::scope(|scope| {
        let store = &store;
        let producing: Vec<_> =
            (0..LOGS).map(|log| scope.spawn(move || produce(store, log))).collect();
        while progress(&caller).iter().any(|[place, ..]| *place < EVENTS) {
            let working: Vec<_> =
                (0..THREADS).map(|own| scope.spawn(move || work(store, own))).collect();
            for worker in working {
                worker.join().unwrap_or(Ok(()))?; // others go on for those that died
            }
        }
        producing.into_iter().try_for_each(|thread| thread.join().expect("no panic"))
    })?;
    expire(&caller)?;
    let now = store.snapshot()?;
    for row in now.range(TOTALS..) {
        let (key, total) = row?;
        println!("name {}: {}", key - TOTALS, total[0]);
    }
    println!("{} came too late", progress(&caller).iter().map(|[.., late]| late).sum::<u64>());
    for row in now.range(WINDOWS..TOTALS) {
        let (key, counted) = row?;
        println!("window {}, name {}: {}", (key - WINDOWS) >> 16, key & 0xFFFF, counted[0]);
    }
    Ok(())
}
