//! A ledger: four threads take transfers from one stream, and each is made once, whoever takes it.
//!
//!     cargo run --offline --example ledger
//!
//! A transaction reads how far the stream has come, makes the next transfer, and notes that it is
//! made: place and results change in one step. In the same step it moves both accounts in an index
//! by balance, whose keys have the balance above the account.
use cupolanettle::{Batch, Error, Options, Snapshot, Store, Transaction, Value};
use std::thread;

const ACCOUNTS: u64 = 8;
const EACH: u64 = 100;
const TRANSFERS: u64 = 1_000;
const THREADS: usize = 4;
const MOST_TRIES: u32 = 100_000;
/// At this key stands how many transfers were made.
const PLACE: u64 = ACCOUNTS;
const INDEX: u64 = 1 << 63;

fn index_of(balance: u64, account: u64) -> u64 {
    INDEX | balance << 8 | account
}

fn word(value: Option<Value>) -> u64 {
    value.map_or(0, |value| value[0])
}

/// Gives an account another balance, and its row of the index another place.
fn set_balance(t: &mut Transaction<'_>, account: u64, from: u64, to: u64) -> Result<(), Error> {
    t.remove(index_of(from, account))?;
    t.put(index_of(to, account), account)?;
    t.put(account, to)?;
    Ok(())
}

fn transfer(t: &mut Transaction<'_>, from: u64, to: u64, wanted: u64) -> Result<(), Error> {
    let old = word(t.get(from)?);
    let amount = wanted.min(old);
    if from == to {
        return Ok(());
    }
    let other = word(t.get(to)?);
    set_balance(t, from, old, old - amount)?;
    set_balance(t, to, other, other + amount)
}

/// Makes the next transfer of the stream: false if there is none.
fn make_next(t: &mut Transaction<'_>) -> Result<bool, Error> {
    let next = word(t.get(PLACE)?);
    if next == TRANSFERS {
        return Ok(false);
    }
    let (from, to) = (next * 5 % ACCOUNTS, (next * 7 + next / 8 * 5 + 1) % ACCOUNTS);
    transfer(t, from, to, next * 7 % 23)?;
    t.put(PLACE, next + 1)?;
    Ok(true)
}

fn work(store: &Store) -> Result<(), Error> {
    let caller = store.caller()?;
    while caller.transact_up_to(MOST_TRIES, make_next)? {}
    Ok(())
}

fn report(snapshot: &Snapshot) -> Result<(), Error> {
    let mut sum = 0;
    for row in snapshot.range(..ACCOUNTS) {
        sum += row?.1[0];
    }
    println!("{} transfers, each once", word(snapshot.get(PLACE)));
    println!("{ACCOUNTS} accounts have {sum}");
    let poorest = snapshot.range(INDEX..).next().transpose()?;
    let richest = snapshot.last_key_value()?;
    for (name, row) in [("poorest", poorest), ("richest", richest)] {
        let (key, account) = row.expect("each account has a row");
        println!("{name}: {} with {}", account[0], (key & !INDEX) >> 8);
    }
    Ok(())
}

fn main() -> Result<(), Error> {
    let store = Options::new().open()?;
    let caller = store.caller()?;
    for account in 0..ACCOUNTS {
        caller.batch(Batch::new().set(account, EACH).set(index_of(EACH, account), account))?;
    }
    thread::scope(|scope| {
        let working: Vec<_> = (0..THREADS).map(|_| scope.spawn(|| work(&store))).collect();
        working.into_iter().try_for_each(|thread| thread.join().expect("no panic"))
    })?;
    report(&caller.snapshot()?)
}
