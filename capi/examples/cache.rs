//! A cache that four threads fill while snapshots of it are read: each snapshot shows the cache as
//! it was at one moment, however often it is read.
//!
//!     cargo run --offline --example cache
use cupolanettle::{Caller, Error, Options, Store, Value};
use std::thread;

const NUMBERS: u64 = 1_000;
const THREADS: usize = 4;

/// What is costly to compute: in how many steps a number comes to 1, and how high it climbs.
fn path_of(mut number: u64) -> Value {
    let (mut steps, mut highest) = (0, number);
    while number > 1 {
        number = if number % 2 == 0 { number / 2 } else { 3 * number + 1 };
        steps += 1;
        highest = highest.max(number);
    }
    [steps, highest].into()
}

/// The path of a number: from the cache, or computed and kept. If another thread kept it first, the
/// path is the same.
fn cached(caller: &Caller, number: u64) -> Result<Value, Error> {
    Ok(caller.get_or_insert_with(number, || path_of(number))?)
}

fn fill(store: &Store) -> Result<(), Error> {
    let caller = store.caller()?;
    for number in 1..=NUMBERS {
        cached(&caller, number)?;
    }
    Ok(())
}

/// Reads a snapshot row by row. It has as many rows as it says, and each of them is right.
fn look(store: &Store) -> Result<(), Error> {
    let snapshot = store.snapshot()?;
    let mut seen = 0;
    for row in snapshot.range(..) {
        let (number, path) = row?;
        assert_eq!(path, path_of(number));
        seen += 1;
    }
    assert_eq!(seen, snapshot.count(..));
    Ok(())
}

fn main() -> Result<(), Error> {
    let store = Options::new().keys(10_000).open()?;
    thread::scope(|scope| {
        let filling: Vec<_> = (0..THREADS).map(|_| scope.spawn(|| fill(&store))).collect();
        while filling.iter().any(|thread| !thread.is_finished()) {
            look(&store)?;
        }
        filling.into_iter().try_for_each(|thread| thread.join().expect("no panic"))
    })?;
    look(&store)?;
    let caller = store.caller()?;
    let path = cached(&caller, 27)?;
    println!("{} numbers", caller.count(..));
    println!("27 takes {} steps and climbs to {}", path[0], path[1]);
    Ok(())
}
