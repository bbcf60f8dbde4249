//! Pages: as many rows as there are and as are asked for, all of one moment.
use cupolanettle::{Batch, Error, Options, Page, Store, Time, Value};
use std::sync::atomic::{AtomicBool, Ordering};
use std::thread;

/// So many rows are read at once, and so many behind them before they are read once more.
const FIRST: u64 = 1_024;
const SECOND: u64 = 4 * FIRST;

fn filled(rows: u64) -> Result<Store, Error> {
    let store = Options::new().keys(10_000).open()?;
    let caller = store.caller()?;
    for key in 0..rows {
        caller.put(2 * key, [key, rows])?;
    }
    Ok(store)
}

fn assert_page(page: &Page, rows: u64, most: usize) {
    let most = u64::try_from(most).unwrap();
    let found = page.rows.iter().map(|&(key, value)| (key, value[0], value[1]));
    assert!(found.eq((0..rows.min(most)).map(|key| (2 * key, key, rows))));
    assert_eq!(page.next, (rows > most).then(|| 2 * most));
}

#[test]
fn a_page_has_all_rows_that_there_are() -> Result<(), Error> {
    for rows in [0, 1, 5, FIRST - 1, FIRST, FIRST + 1, SECOND, SECOND + 1] {
        let store = filled(rows)?;
        let (caller, snapshot) = (store.caller()?, store.snapshot()?);
        for most in [0, 1, 1_023, 1_024, 1_025, 4_095, 4_096, 4_097, 50_000_000, usize::MAX] {
            assert_page(&caller.page(.., most)?, rows, most);
            assert_page(&snapshot.page(.., most)?, rows, most);
        }
    }
    Ok(())
}

#[test]
fn pages_of_a_range() -> Result<(), Error> {
    let store = filled(SECOND)?;
    let caller = store.caller()?;
    let (high, low) = (2, 1);
    assert_eq!(caller.page(high..low, 3)?, Page::default());
    assert_eq!(caller.page(..=4, 3)?.next, None);
    assert_eq!(caller.page(3..9, 2)?.next, Some(8));
    let page = caller.page(2 * FIRST..=4 * FIRST, usize::MAX)?;
    assert_eq!(page.rows.len() as u64, FIRST + 1);
    assert_eq!((page.rows[0].0, page.next), (2 * FIRST, None));
    Ok(())
}

/// A page that was read several times is that of the last time.
#[test]
fn the_time_of_a_page() -> Result<(), Error> {
    let store = filled(SECOND)?;
    let caller = store.caller()?;
    let written = caller.put(1, 1)?;
    assert_eq!(caller.page(.., usize::MAX)?.rows.len() as u64, SECOND + 1);
    assert!(caller.time() > written);
    assert_eq!(caller.time(), caller.seen());
    Ok(())
}

fn write_alike(store: &Store) -> Result<(), Error> {
    let caller = store.caller()?;
    for word in 0..50 {
        let mut batch = Batch::new();
        (0..2 * FIRST).for_each(|key| _ = batch.set(key, word));
        caller.batch(&batch)?;
    }
    Ok(())
}

fn read_alike(store: &Store, last: Time) -> Result<Time, Error> {
    let caller = store.caller()?;
    let rows = caller.page(.., usize::MAX)?.rows;
    let value = rows.first().map_or(Value::from(0), |row| row.1);
    assert!(rows.is_empty() || rows.len() as u64 == 2 * FIRST);
    assert!(rows.iter().all(|row| row.1 == value));
    assert!(caller.time() >= last);
    Ok(caller.time())
}

#[test]
fn a_long_page_beside_batches_is_of_one_moment() -> Result<(), Error> {
    let store = Options::new().keys(10_000).open()?;
    let written = AtomicBool::new(false);
    thread::scope(|scope| {
        let writing = scope.spawn(|| {
            let came = write_alike(&store);
            written.store(true, Ordering::SeqCst);
            came
        });
        let mut last = Time::ZERO;
        while !written.load(Ordering::SeqCst) {
            last = read_alike(&store, last)?;
        }
        writing.join().unwrap()
    })?;
    read_alike(&store, Time::ZERO)?;
    Ok(())
}
