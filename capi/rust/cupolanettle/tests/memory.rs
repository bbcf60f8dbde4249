//! Memory that runs out: each call that takes some is refused, changes nothing, and is made once
//! there is some.
//!
//! This program has a malloc of its own, in front of that of the system.
use cupolanettle::{
    Batch, BatchError, Caller, CopyError, Error, Memory, OpenError, Options, RetainError, Store,
    TransactError, Value,
};
use std::cell::Cell;
use std::ffi::c_void;

const ROWS: u64 = 200;
/// So many rows an iterator reads at a time.
const AT_A_TIME: usize = 64;
/// More allocations than any call makes.
const MANY: u32 = 1_000_000;

thread_local! {
    /// After so many more allocations of this thread, the next one is refused.
    static UNTIL_REFUSED: Cell<Option<u32>> = const { Cell::new(None) };
}

extern "C" {
    fn __libc_malloc(size: usize) -> *mut c_void;
}

/// # Safety
///
/// As the system's.
#[no_mangle]
pub unsafe extern "C" fn malloc(size: usize) -> *mut c_void {
    let left = UNTIL_REFUSED.get();
    UNTIL_REFUSED.set(left.and_then(|left| left.checked_sub(1)));
    if left == Some(0) {
        return std::ptr::null_mut();
    }
    // SAFETY: it is the system's.
    unsafe { __libc_malloc(size) }
}

/// What the call answers if so many of its allocations succeed; and whether it made more.
fn with_allocations<T>(count: u32, call: impl FnOnce() -> T) -> (T, bool) {
    UNTIL_REFUSED.set(Some(count));
    let answer = call();
    (answer, UNTIL_REFUSED.replace(None).is_none())
}

/// Refuses each allocation of the call in turn; answers how many there were, and the last answer.
fn refuse_each<T>(call: impl Fn() -> Result<T, Memory>) -> (u32, T) {
    let mut count = 0;
    loop {
        let (answer, is_refused) = with_allocations(count, &call);
        match answer {
            Ok(answer) if !is_refused => return (count, answer),
            answer => assert_eq!(answer.map(drop), Err(Memory)),
        }
        count += 1;
    }
}

fn filled() -> Result<(Store, Caller), Error> {
    let store = Options::new().keys(1_000).open()?;
    let caller = store.caller()?;
    for key in 0..ROWS {
        caller.put(key, key)?;
    }
    Ok((store, caller))
}

#[test]
fn pages() -> Result<(), Error> {
    let (_store, caller) = filled()?;
    let snapshot = caller.snapshot()?;
    let (count, page) = refuse_each(|| caller.page(.., usize::MAX));
    assert!(count > 1);
    assert_eq!(page.rows.len() as u64, ROWS);
    let (count, page) = refuse_each(|| snapshot.page(..10, 5));
    assert!(count > 1);
    assert_eq!((page.rows.len(), page.next), (5, Some(5)));
    Ok(())
}

#[test]
fn the_first_row() -> Result<(), Error> {
    let (store, caller) = filled()?;
    let snapshot = caller.snapshot()?;
    let (count, row) = refuse_each(|| caller.first_key_value());
    assert!(count > 0);
    assert_eq!(row, Some((0, 0.into())));
    let (_, row) = refuse_each(|| snapshot.first_key_value());
    assert_eq!(row, Some((0, 0.into())));
    // Whether there is one is told without memory.
    for (keys, is_empty) in [(ROWS, false), (0, true)] {
        (keys..ROWS).try_for_each(|key| caller.remove(key).map(drop))?;
        for refused in 0..=count {
            assert_eq!(with_allocations(refused, || caller.is_empty()).0, is_empty);
        }
    }
    for refused in 0..=count {
        assert!(!with_allocations(refused, || snapshot.is_empty()).0);
    }
    drop(store);
    Ok(())
}

#[test]
fn the_last_row() -> Result<(), Error> {
    let (_store, caller) = filled()?;
    let (count, row) = refuse_each(|| caller.last_key_value());
    assert!(count > 0);
    assert_eq!(row, Some((ROWS - 1, (ROWS - 1).into())));
    let (count, page) = refuse_each(|| caller.snapshot().unwrap().page_down(.., 5));
    assert!(count > 1);
    assert_eq!((page.rows.len(), page.next), (5, Some(ROWS - 6)));
    Ok(())
}

#[test]
fn many_keys() -> Result<(), Error> {
    let (_store, caller) = filled()?;
    let keys: Vec<u64> = (0..ROWS).collect();
    let (count, found) = refuse_each(|| caller.get_many(&keys));
    assert!(count > 1);
    assert!(found.iter().zip(keys).all(|(value, key)| *value == Some(key.into())));
    let (found, is_refused) = with_allocations(0, || caller.get_array([ROWS, 7]));
    assert_eq!((found, is_refused), ([None, Some(7.into())], false));
    Ok(())
}

#[test]
fn a_range_from_its_end_takes_memory_once() -> Result<(), Error> {
    let (_store, caller) = filled()?;
    let mut rows = caller.range(..)?.rev();
    let (row, is_refused) = with_allocations(0, || rows.next());
    assert_eq!((row, is_refused), (Some(Err(Memory)), true));
    assert_eq!(rows.next(), Some(Ok((ROWS - 1, (ROWS - 1).into()))));
    let (count, is_refused) = with_allocations(0, || rows.flatten().count() as u64);
    assert_eq!((count, is_refused), (ROWS - 1, false));
    Ok(())
}

/// What is refused in it ends it, and is not written. A count does without memory for the rows of
/// others, which its seat keeps from the first one on.
#[test]
fn a_transaction() -> Result<(), Error> {
    let (_store, caller) = filled()?;
    assert_eq!(caller.transact(|t| t.count(..))?, ROWS);
    let run = || {
        caller.transact(|t| {
            t.put(0, 1)?;
            let found = t.get_many(&[1, 2, 3])?;
            let rows = t.page(.., 5)?.rows.len() + t.page_down(.., 7)?.rows.len();
            assert_eq!((t.first(..)?, t.count(..)?), (Some((0, 1.into())), ROWS));
            Ok::<_, TransactError>((found.len(), rows))
        })
    };
    for count in 0..MANY {
        let (came, is_refused) = with_allocations(count, run);
        let Err(refused) = came else {
            assert!(count > 3 && !is_refused);
            assert_eq!((came, caller.get(0)), (Ok((3, 12)), Some(1.into())));
            return Ok(());
        };
        assert_eq!((refused, is_refused), (TransactError::Memory, true));
        assert_eq!(caller.get(0), Some(0.into()));
    }
    panic!("it takes more and more");
}

/// Whether these rows are those of the keys from this one on, and are read without memory.
fn are_read_without_memory(
    mut rows: impl Iterator<Item = Result<(u64, Value), Memory>>,
    first: u64,
) -> bool {
    let (are_read, is_refused) = with_allocations(0, || {
        (first..ROWS).all(|key| rows.next() == Some(Ok((key, key.into())))) && rows.next().is_none()
    });
    are_read && !is_refused
}

/// Its first reading takes memory, for the rows that it reads at a time, and is made again.
#[test]
fn an_iterator_takes_memory_once() -> Result<(), Error> {
    let (_store, caller) = filled()?;
    let mut rows = caller.range(..)?;
    for _ in 0..3 {
        let (row, is_refused) = with_allocations(0, || rows.next());
        assert!(is_refused);
        assert_eq!(row, Some(Err(Memory)));
    }
    assert_eq!(rows.next(), Some(Ok((0, 0.into()))));
    assert!(are_read_without_memory(rows, 1));
    Ok(())
}

/// Its opening alone is refused.
#[test]
fn a_walk_reads_without_memory() -> Result<(), Error> {
    let (_store, caller) = filled()?;
    let (count, walk) = refuse_each(|| caller.walk(..));
    assert!(count > 0);
    assert!(are_read_without_memory(walk, 0));
    Ok(())
}

/// It ends where memory runs out, and what it removed before is removed.
#[test]
fn a_removal_of_rows() -> Result<(), Error> {
    let (_store, caller) = filled()?;
    for count in 0..MANY {
        let before = caller.count(..);
        let (came, is_refused) = with_allocations(count, || caller.retain(.., |_, _| false));
        match came {
            Ok(removed) => {
                assert!(count > 0 && !is_refused);
                assert_eq!((removed, caller.count(..)), (before, 0));
                return Ok(());
            }
            Err(refused) => assert_eq!((refused, is_refused), (RetainError::Memory, true)),
        }
        let removed = ROWS - caller.count(..);
        assert_eq!(removed % AT_A_TIME as u64, 0);
        for key in 0..removed {
            caller.put(key, key)?;
        }
    }
    panic!("it takes more and more");
}

#[test]
fn a_removal_of_a_range() -> Result<(), Error> {
    let (_store, caller) = filled()?;
    for count in 0..MANY {
        let (came, is_refused) = with_allocations(count, || caller.clear());
        let removed = ROWS - caller.count(..);
        match came {
            Ok(answer) => {
                assert!(count > 1 && !is_refused);
                assert_eq!((answer, removed), (ROWS, ROWS));
                return Ok(());
            }
            Err(refused) => assert_eq!((refused, is_refused), (RetainError::Memory, true)),
        }
        assert_eq!(removed % AT_A_TIME as u64, 0);
        for key in 0..removed {
            caller.put(key, key)?;
        }
    }
    panic!("it takes more and more");
}

#[test]
fn a_copy() -> Result<(), Error> {
    let (store, caller) = filled()?;
    let snapshot = store.snapshot()?;
    let copy = Options::new().keys(1_000).open()?;
    for count in 0..MANY {
        let (came, is_refused) = with_allocations(count, || snapshot.copy_to(&copy));
        assert_eq!(copy.stats().callers, 0);
        match came {
            Ok(copied) => {
                assert!(count > 1 && !is_refused);
                let found = copy.caller()?.page(.., usize::MAX)?;
                assert_eq!((copied, found), (ROWS, caller.page(.., usize::MAX)?));
                return Ok(());
            }
            Err(refused) => assert_eq!((refused, is_refused), (CopyError::Memory, true)),
        }
    }
    panic!("it takes more and more");
}

#[test]
fn batches() -> Result<(), Error> {
    let (_store, caller) = filled()?;
    let mut batch = Batch::new();
    batch.remove(1).set(2, 9);
    let before = caller.time();
    let (came, is_refused) = with_allocations(0, || caller.batch(&batch));
    assert!(is_refused);
    assert_eq!(came, Err(BatchError::Memory));
    assert_eq!((caller.time(), caller.count(..)), (before, ROWS));
    caller.batch(&batch)?;
    assert_eq!(caller.count(..), ROWS - 1);
    Ok(())
}

#[test]
fn stores() -> Result<(), Error> {
    let options = Options::new().keys(1_000);
    UNTIL_REFUSED.set(Some(MANY));
    let store = options.open();
    let left = UNTIL_REFUSED.replace(None);
    store?.caller()?.put(1, 1)?;
    // The last one is of Rust's own few words, without which the program ends.
    for count in 0..MANY - left.unwrap() - 1 {
        let (came, is_refused) = with_allocations(count, || options.open().map(drop));
        assert!(is_refused);
        assert_eq!(came, Err(OpenError::Memory));
    }
    Ok(())
}
