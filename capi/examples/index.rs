//! An index: goods by their number, and beside them their numbers by price.
//!
//!     cargo run --offline --example index
//!
//! A good and its entry in the index are changed in one transaction. So each snapshot has one
//! entry for each good, at its price, and what a query finds in the index is among the goods.
//!
//!     goods   0, 1 bit | number, 63 bits                     -> price, name
//!     index   1, 1 bit | price, 31 bits | number, 32 bits    -> 0
use cupolanettle::codec::{KeyCodec, Text8};
use cupolanettle::{Batch, Caller, Error, Options, Store, Transaction, Value};
use std::ops::Range;
use std::thread;

const GOODS: u64 = 100;
const THREADS: u64 = 4;
const ROUNDS: u64 = 100;
const PAGE: usize = 4;
const INDEX: u64 = 1 << 63;
const NUMBER: u64 = (1 << 32) - 1;

/// The key of a good's entry: entries are by price, and those of one price by number.
fn place_of(price: u64, number: u64) -> u64 {
    INDEX | price << 32 | number
}

/// What changes the price of a good that was read, as a batch.
fn moved(number: u64, good: Value, price: u64) -> Batch {
    let mut batch = Batch::new();
    batch.remove(place_of(good[0], number)).set(place_of(price, number), 0);
    batch.set(number, [price, good[1]]);
    batch
}

/// Reads a good, and gives it the price that the function makes of the old one.
fn reprice(
    rows: &mut Transaction<'_>,
    number: u64,
    function: impl Fn(u64) -> u64,
) -> Result<(), Error> {
    let Some(good) = rows.get(number)? else { return Ok(()) };
    let price = function(good[0]);
    rows.remove(place_of(good[0], number))?;
    rows.put(place_of(price, number), 0)?;
    rows.put(number, [price, good[1]])?;
    Ok(())
}

/// The first places of the index between the two, by rising or falling price, and their goods.
fn query(caller: &Caller, keys: Range<u64>, falls: bool) -> Result<Vec<(u64, Value)>, Error> {
    let now = caller.snapshot()?;
    let page = if falls { now.page_down(keys, PAGE)? } else { now.page(keys, PAGE)? };
    let places: Vec<u64> = page.rows.into_iter().map(|(place, _)| place).collect();
    let numbers: Vec<u64> = places.iter().map(|place| place & NUMBER).collect();
    let goods = now.get_many(&numbers)?;
    Ok(places.into_iter().zip(goods.into_iter().flatten()).collect())
}

/// Prints the goods with prices of the range, each page behind the last place.
fn print_pages(caller: &Caller, prices: Range<u64>, falls: bool) -> Result<(), Error> {
    let mut keys = place_of(prices.start, 0)..place_of(prices.end, 0);
    loop {
        let page = query(caller, keys.clone(), falls)?;
        let Some((last, _)) = page.last() else { return Ok(()) };
        if falls {
            keys.end = *last;
        } else {
            keys.start = last + 1;
        }
        let shown =
            page.iter().map(|(_, good)| format!("{} {}", Text8::from_key(good[1]), good[0]));
        println!("{}", shown.collect::<Vec<_>>().join("; "));
    }
}

/// A store with goods.
fn filled() -> Result<Store, Error> {
    let store = Options::new().open()?;
    let caller = store.caller()?;
    for number in 0..GOODS {
        let name = Text8::try_from(&format!("good {number}")[..])?;
        let price = 10 + number * 37 % 90;
        let mut batch = Batch::new();
        batch.set(number, [price, name.to_key()]).set(place_of(price, number), 0);
        caller.batch(&batch)?;
    }
    Ok(store)
}

/// Raises prices, of which others raise some at the same time.
fn work(store: &Store, own: u64) -> Result<(), Error> {
    let caller = store.caller()?;
    for turn in 0..ROUNDS {
        let (number, by) = ((31 * own + 17 * turn) % 40, (own + turn) % 7);
        caller.transact(|rows| reprice(rows, number, |price| price + by))?;
    }
    Ok(())
}

fn look(store: &Store) -> Result<String, Error> {
    let now = store.snapshot()?;
    let (mut entries, mut wrong) = (0, 0);
    for row in now.range(INDEX..) {
        let (place, _) = row?;
        let number = place & NUMBER;
        let is_there = now.get(number).is_some_and(|good| place_of(good[0], number) == place);
        entries += 1;
        wrong += u64::from(!is_there);
    }
    let goods = now.count(..INDEX);
    Ok(format!("{goods} goods, {entries} entries, {wrong} of them wrong"))
}

/// Two threads change one good: both read it before either writes. Here one plays both.
fn change_at_one_time() -> Result<(), Error> {
    let store = filled()?;
    let (slow, fast) = (store.caller()?, store.caller()?);
    let good = slow.get(7).expect("good 7"); // both read this
    fast.batch(&moved(7, good, 500))?;
    slow.batch(&moved(7, good, 600))?;
    println!("batches: {}", look(&store)?);

    let store = filled()?;
    let (slow, fast) = (store.caller()?, store.caller()?);
    let mut runs = 0;
    slow.transact(|rows| {
        reprice(rows, 7, |_| 600)?;
        runs += 1;
        if runs == 1 {
            fast.transact(|rows| reprice(rows, 7, |_| 500))?;
        }
        Ok::<_, Error>(())
    })?;
    assert_eq!(runs, 2);
    println!("transactions: {}", look(&store)?);
    Ok(())
}

fn main() -> Result<(), Error> {
    let store = filled()?;
    thread::scope(|scope| {
        let working: Vec<_> = (0..THREADS)
            .map(|own| {
                let store = &store;
                scope.spawn(move || work(store, own))
            })
            .collect();
        while working.iter().any(|thread| !thread.is_finished()) {
            assert_eq!(look(&store)?, "100 goods, 100 entries, 0 of them wrong");
        }
        working.into_iter().try_for_each(|thread| thread.join().expect("no panic"))
    })?;
    println!("{}", look(&store)?);
    print_pages(&store.caller()?, 100..120, false)?;
    print_pages(&store.caller()?, 100..120, true)?;
    change_at_one_time()
}
