//! Pages, and iterators over rows.
use crate::error::Memory;
use crate::library::{Handle, Kind};
use crate::snapshot::Snapshot;
use crate::value::Value;
use crate::Time;
use cupolanettle_sys as raw;
use std::borrow::Borrow;
use std::fmt;
use std::iter::FusedIterator;
use std::ops::{Bound, RangeBounds};

/// So many rows an iterator reads at first, and a loop over pages each time.
pub(crate) const ROWS_AT_A_TIME: usize = 64;

/// The most rows that an iterator reads at a time.
const MOST_AT_A_TIME: usize = 512;

/// A page is read with room for so many rows at first.
const FIRST_ROOM: usize = 1_024;

/// An iterator reads so many times as many rows the next time; and a page is read anew with so many
/// times the room while there are more rows.
const GROWTH: usize = 4;

/// The keys from the first one to the last one, both included; none if the first is above the
/// last.
#[derive(Clone, Copy)]
pub(crate) struct Keys {
    pub(crate) first: u64,
    pub(crate) last: u64,
}

impl Keys {
    pub(crate) fn of(bounds: &impl RangeBounds<u64>) -> Keys {
        let first = match bounds.start_bound() {
            Bound::Included(&key) => Some(key),
            Bound::Excluded(&key) => key.checked_add(1),
            Bound::Unbounded => Some(0),
        };
        let last = match bounds.end_bound() {
            Bound::Included(&key) => Some(key),
            Bound::Excluded(&key) => key.checked_sub(1),
            Bound::Unbounded => Some(u64::MAX),
        };
        match (first, last) {
            (Some(first), Some(last)) => Keys { first, last },
            _ => Keys { first: 1, last: 0 },
        }
    }
}

/// The first rows of a range, or the last ones.
///
/// ```
/// # use cupolanettle::{Error, Options};
/// # let store = Options::new().keys(1_000).open()?;
/// # let caller = store.caller()?;
/// for key in [3, 5, 8] {
///     caller.put(key, 10 * key)?;
/// }
/// let page = caller.page(.., 2)?;
/// assert_eq!(page.rows, [(3, 30.into()), (5, 50.into())]);
/// assert_eq!(page.next, Some(8));
/// # Ok::<(), Error>(())
/// ```
#[non_exhaustive]
#[derive(Clone, PartialEq, Eq, Hash, Debug, Default)]
pub struct Page {
    /// Keys with their values, by rising key; of a page downwards, by falling key.
    pub rows: Vec<(u64, Value)>,
    /// The key of the row behind them, if there are more.
    pub next: Option<u64>,
}

/// The key and the value of a row that was read.
#[inline]
pub(crate) fn pair(row: &raw::Row) -> Option<(u64, Value)> {
    Some((row.key, Value::from_raw(row.value)?))
}

/// The first row of all, if there is one.
pub(crate) fn first_row<K: Kind>(handle: &Handle<K>) -> Result<Option<(u64, Value)>, Memory> {
    let mut read = Vec::new();
    handle.page(Keys::of(&..), 1, &mut read)?;
    Ok(read.first().and_then(pair))
}

/// The last row of all, if there is one.
pub(crate) fn last_row<K: Kind>(handle: &Handle<K>) -> Result<Option<(u64, Value)>, Memory> {
    let mut read = Vec::new();
    handle.page_down(Keys::of(&..), 1, &mut read)?;
    Ok(read.first().and_then(pair))
}

/// The values of the keys at one time.
pub(crate) fn read_many<K: Kind>(
    handle: &Handle<K>,
    keys: &[u64],
) -> Result<Vec<Option<Value>>, Memory> {
    let read = handle.get_many(keys)?;
    let mut values = Vec::new();
    values.try_reserve_exact(read.len()).map_err(|_| Memory)?;
    values.extend(read.into_iter().map(Value::from_raw));
    Ok(values)
}

/// Whether there is no row. Where no memory is left to read one, the rows are counted.
pub(crate) fn is_empty<K: Kind>(handle: &Handle<K>) -> bool {
    match first_row(handle) {
        Ok(row) => row.is_none(),
        Err(Memory) => handle.count(Keys::of(&..)) == 0,
    }
}

/// Reads a page of at most so many rows: anew with more room while there are more rows, so that it
/// takes memory for the rows that there are. The last reading is the answer.
pub(crate) fn read_page<F>(most: usize, page: F) -> Result<Page, Memory>
where
    F: Fn(usize, &mut Vec<raw::Row>) -> Result<Option<u64>, Memory>,
{
    let mut read = Vec::new();
    let mut room = most.min(FIRST_ROOM);
    let next = loop {
        let next = page(room, &mut read)?;
        if next.is_none() || room == most {
            break next;
        }
        room = most.min(room.saturating_mul(GROWTH));
    };
    let mut rows = Vec::new();
    rows.try_reserve_exact(read.len()).map_err(|_| Memory)?;
    rows.extend(read.iter().filter_map(pair));
    Ok(Page { rows, next })
}

/// An iterator over the rows of a range by rising key, as they are at one moment: over a snapshot.
/// From its end it goes by falling key, as [`rev`](Iterator::rev) does, and a row costs more there.
///
/// [`Snapshot::range`] lends it a snapshot, and [`Caller::range`](crate::Caller::range) gives it
/// one of its own, which is closed when the iterator is dropped, wherever that is. A
/// [`Walk`](crate::Walk) has none.
///
/// An item is an error only where memory ran out; the iterator then goes on from the same row.
///
/// ```
/// # use cupolanettle::{Error, Options};
/// # let store = Options::new().keys(1_000).open()?;
/// # let caller = store.caller()?;
/// caller.put(7, 70)?;
/// let mut rows = caller.range(..)?;
/// caller.put(8, 80)?;
/// assert_eq!(rows.next().transpose()?, Some((7, 70.into())));
/// assert_eq!(rows.next().transpose()?, None);
///
/// let newest = caller.range(..)?.rev().take(1).collect::<Result<Vec<_>, _>>()?;
/// assert_eq!(newest, [(8, 80.into())]);
/// # Ok::<(), Error>(())
/// ```
#[doc(alias("Iter", "Iterator", "Cursor", "Scan"))]
pub struct Range<S> {
    snapshot: S,
    /// What is left between the rows that were read from both ends.
    left: Option<Keys>,
    front: Rows,
    back: Rows,
}

/// The rows that were read last from one end, and the place of the next one among them.
#[derive(Default)]
struct Rows {
    read: Vec<raw::Row>,
    at: usize,
    /// There was room for so many.
    room: usize,
}

impl Rows {
    /// The room to read the next rows of this range, in which there may be few keys: more as the
    /// iterator goes on, since each reading begins with a search.
    fn next_room(&self, keys: Keys) -> usize {
        let others = usize::try_from(keys.last.saturating_sub(keys.first)).unwrap_or(usize::MAX);
        let room = self.room.saturating_mul(GROWTH).clamp(ROWS_AT_A_TIME, MOST_AT_A_TIME);
        room.min(others.saturating_add(1))
    }

    fn len(&self) -> usize {
        self.read.len() - self.at
    }

    /// The next one.
    fn take(&mut self) -> Option<(u64, Value)> {
        let row = self.read.get(self.at).and_then(pair)?;
        self.at += 1;
        Some(row)
    }

    /// The last one, which the other end comes to first.
    fn take_last(&mut self) -> Option<(u64, Value)> {
        if self.len() == 0 {
            return None;
        }
        self.read.pop().as_ref().and_then(pair)
    }
}

impl<S: Borrow<Snapshot>> Range<S> {
    pub(crate) fn new(snapshot: S, keys: Keys) -> Range<S> {
        Range { snapshot, left: Some(keys), front: Rows::default(), back: Rows::default() }
    }

    /// The time at which it reads.
    ///
    /// ```
    /// # use cupolanettle::{Error, Options};
    /// # let store = Options::new().keys(1_000).open()?;
    /// # let caller = store.caller()?;
    /// let rows = caller.range(..)?;
    /// assert!(caller.put(7, 70)? >= rows.time());
    /// # Ok::<(), Error>(())
    /// ```
    #[must_use]
    pub fn time(&self) -> Time {
        self.snapshot.borrow().time()
    }

    /// Reads the next rows at the front, if some are left.
    fn read_on(&mut self) -> Result<(), Memory> {
        let Some(keys) = self.left.filter(|_| self.front.len() == 0) else {
            return Ok(());
        };
        let room = self.front.next_room(keys);
        self.front.at = 0;
        let next = self.snapshot.borrow().handle.page(keys, room, &mut self.front.read)?;
        self.front.room = room;
        self.left = next.map(|first| Keys { first, ..keys });
        Ok(())
    }

    /// Reads the next rows at the back, if some are left.
    fn read_back(&mut self) -> Result<(), Memory> {
        let Some(keys) = self.left.filter(|_| self.back.len() == 0) else {
            return Ok(());
        };
        let room = self.back.next_room(keys);
        self.back.at = 0;
        let next = self.snapshot.borrow().handle.page_down(keys, room, &mut self.back.read)?;
        self.back.room = room;
        self.left = next.map(|last| Keys { last, ..keys });
        Ok(())
    }
}

impl<S: Borrow<Snapshot>> Iterator for Range<S> {
    type Item = Result<(u64, Value), Memory>;

    fn next(&mut self) -> Option<Self::Item> {
        if let Err(memory) = self.read_on() {
            return Some(Err(memory));
        }
        self.front.take().or_else(|| self.back.take_last()).map(Ok)
    }

    fn size_hint(&self) -> (usize, Option<usize>) {
        let read = self.front.len() + self.back.len();
        (read, if self.left.is_none() { Some(read) } else { None })
    }
}

impl<S: Borrow<Snapshot>> DoubleEndedIterator for Range<S> {
    fn next_back(&mut self) -> Option<Self::Item> {
        if let Err(memory) = self.read_back() {
            return Some(Err(memory));
        }
        self.back.take().or_else(|| self.front.take_last()).map(Ok)
    }
}

impl<S: Borrow<Snapshot>> FusedIterator for Range<S> {}

impl<S: Borrow<Snapshot>> fmt::Debug for Range<S> {
    fn fmt(&self, f: &mut fmt::Formatter<'_>) -> fmt::Result {
        f.debug_struct("Range").field("time", &self.time()).finish_non_exhaustive()
    }
}
