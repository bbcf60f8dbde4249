//! A hundred thousand random calls of one thread, each answered as a `BTreeMap` answers.
use cupolanettle::{
    Batch, Caller, ChangeError, Changed, Error, Options, Snapshot, Store, Time, Value,
};
use std::collections::BTreeMap;
use std::ops::RangeInclusive;

type Map = BTreeMap<u64, Value>;

const CALLS: usize = 100_000;
const KEYS: u64 = 300;

/// Random numbers: a linear congruence, of which the upper bits are used.
struct Random(u64);

impl Random {
    fn below(&mut self, bound: u64) -> u64 {
        self.0 =
            self.0.wrapping_mul(6_364_136_223_846_793_005).wrapping_add(1_442_695_040_888_963_407);
        (self.0 >> 33) % bound
    }

    fn size_below(&mut self, bound: u64) -> usize {
        usize::try_from(self.below(bound)).unwrap()
    }

    fn key(&mut self) -> u64 {
        // Keys of both ends of their range, and between.
        match self.below(KEYS) {
            0 => 0,
            1 => u64::MAX,
            key => key << 50,
        }
    }

    fn keys(&mut self) -> RangeInclusive<u64> {
        let (one, other) = (self.key(), self.key());
        one.min(other)..=one.max(other)
    }

    fn value(&mut self) -> Value {
        let words: Vec<_> = (0..=self.below(8)).map(|_| self.below(1000)).collect();
        Value::try_from(&words[..]).unwrap()
    }
}

/// The store, and what it has to answer.
struct Play {
    random: Random,
    store: Store,
    caller: Caller,
    map: Map,
    snapshots: Vec<(Snapshot, Map)>,
}

/// What a change is to come to.
#[derive(Debug)]
enum Wanted {
    /// The key keeps what it has.
    Kept,
    /// The key has this then.
    Has(Option<Value>),
}

/// So much later.
fn later(time: Time, by: u64) -> Time {
    (u64::from(time) + by).into()
}

/// What an addition to this value is to come to.
fn sum_of(old: Option<Value>, by: u64) -> Wanted {
    let sum = match old.as_deref() {
        None => Some(by),
        Some(&[word]) => word.checked_add(by),
        Some(_) => None,
    };
    sum.map_or(Wanted::Kept, |sum| Wanted::Has(Some(sum.into())))
}

fn rows(map: &Map, keys: RangeInclusive<u64>) -> Vec<(u64, Value)> {
    map.range(keys).map(|(key, value)| (*key, *value)).collect()
}

impl Play {
    fn new(store: Store) -> Result<Play, Error> {
        let caller = store.caller()?;
        let (random, map) = (Random(1), Map::new());
        Ok(Play { random, store, caller, map, snapshots: Vec::new() })
    }

    fn write(&mut self) -> Result<(), Error> {
        let (key, value) = (self.random.key(), self.random.value());
        let before = self.caller.seen();
        let time = match self.random.below(6) {
            0 | 1 => {
                self.map.remove(&key);
                self.caller.remove(key)?
            }
            2 => match self.caller.try_put(key, value) {
                Ok(time) => {
                    self.map.insert(key, value);
                    time
                }
                Err(_) => return Ok(()),
            },
            _ => {
                self.map.insert(key, value);
                self.caller.put(key, value)?
            }
        };
        assert!(time >= before);
        assert_eq!(self.caller.time(), time);
        assert_eq!(self.caller.seen(), later(time, 1));
        Ok(())
    }

    fn write_batch(&mut self) -> Result<(), Error> {
        let mut batch = Batch::new();
        for _ in 0..=self.random.below(20) {
            let (key, value) = (self.random.key(), self.random.value());
            if self.random.below(3) == 0 {
                batch.remove(key);
                self.map.remove(&key);
            } else {
                batch.set(key, value);
                self.map.insert(key, value);
            }
        }
        let before = self.caller.seen();
        let time = self.caller.batch(&batch)?;
        assert!(time >= before);
        assert_eq!(
            (self.caller.time(), self.caller.seen()),
            (time, later(time, batch.len() as u64))
        );
        Ok(())
    }

    /// Changes a key in one of four ways, each of which may fit what it has or not.
    fn change(&mut self) {
        let (key, value) = (self.random.key(), self.random.value());
        let old = self.map.get(&key).copied();
        let other = Some(value).filter(|_| self.random.below(2) == 0);
        let (came, wanted) = match self.random.below(4) {
            0 => {
                let by = self.random.below(10) << 60;
                (self.caller.add(key, by), sum_of(old, by))
            }
            1 => {
                let wanted = if old.is_none() { Wanted::Has(Some(value)) } else { Wanted::Kept };
                (self.caller.put_if_absent(key, value), wanted)
            }
            2 => {
                let expected = if self.random.below(3) == 0 { other } else { old };
                let wanted = if expected == old { Wanted::Has(other) } else { Wanted::Kept };
                (self.caller.replace(key, expected, other), wanted)
            }
            _ => {
                let greater = |old: Option<Value>| old.filter(|old| *old > value).or(other);
                let came = self.caller.update(key, greater);
                (came.map_err(ChangeError::from), Wanted::Has(greater(old)))
            }
        };
        self.assert_change(key, came, wanted);
    }

    /// The value of a key, or one that it is given.
    fn insert(&mut self) -> Result<(), Error> {
        let (key, value) = (self.random.key(), self.random.value());
        let mut is_asked = false;
        let found = self.caller.get_or_insert_with(key, || {
            is_asked = true;
            value
        })?;
        assert_eq!(is_asked, !self.map.contains_key(&key));
        assert_eq!(found, *self.map.entry(key).or_insert(value));
        Ok(())
    }

    /// Removes some rows of a range, or all.
    fn retain(&mut self) -> Result<(), Error> {
        let (keys, bound) = (self.random.keys(), self.random.value());
        let bound = Some(bound).filter(|_| self.random.below(2) == 0);
        let before = self.map.len();
        let removed = match bound {
            Some(bound) => self.caller.retain(keys.clone(), |_, value| value < bound)?,
            None => self.caller.remove_range(keys.clone())?,
        };
        let is_kept = |value: &Value| bound.is_some_and(|bound| *value < bound);
        self.map.retain(|key, value| !keys.contains(key) || is_kept(value));
        assert_eq!(removed, (before - self.map.len()) as u64);
        Ok(())
    }

    fn assert_change(&mut self, key: u64, came: Result<Changed, ChangeError>, wanted: Wanted) {
        let old = self.map.get(&key).copied();
        let (time, seen) = (self.caller.time(), self.caller.seen());
        match (came, wanted) {
            (Ok(changed), Wanted::Has(new)) => {
                assert_eq!((changed.before, changed.after), (old, new));
                assert_eq!((changed.time, later(time, 1)), (time, seen));
                self.map.remove(&key);
                self.map.extend(new.map(|new| (key, new)));
            }
            (Err(ChangeError::Kept(kept)), Wanted::Kept) => {
                assert_eq!(kept.value, old);
                assert_eq!((kept.time, kept.time), (time, seen));
            }
            (came, wanted) => panic!("{came:?}, where {wanted:?} was to come"),
        }
    }

    fn read(&mut self) -> Result<(), Error> {
        let (key, keys) = (self.random.key(), self.random.keys());
        let most = self.random.size_below(100);
        match self.random.below(10) {
            0 => assert_eq!(self.caller.count(keys.clone()), rows(&self.map, keys).len() as u64),
            1 => {
                let page = self.caller.page(keys.clone(), most)?;
                assert_page(&page, &rows(&self.map, keys), most);
            }
            2 => {
                let read: Result<Vec<_>, _> = self.caller.range(keys.clone())?.collect();
                assert_eq!(read?, rows(&self.map, keys));
            }
            3 => {
                let read: Result<Vec<_>, _> = self.caller.walk(keys.clone())?.collect();
                assert_eq!(read?, rows(&self.map, keys));
            }
            4 => {
                assert_eq!(self.caller.first_key_value()?, first_row(&self.map));
                assert_eq!(self.caller.is_empty(), self.map.is_empty());
            }
            5 => assert_eq!(self.caller.contains_key(key), self.map.contains_key(&key)),
            _ => assert_eq!(self.caller.get(key), self.map.get(&key).copied()),
        }
        Ok(())
    }

    fn open_or_close(&mut self) -> Result<(), Error> {
        if self.snapshots.len() < 3 {
            let snapshot = if self.random.below(2) == 0 {
                self.store.snapshot()?
            } else {
                self.caller.snapshot()?
            };
            self.snapshots.push((snapshot, self.map.clone()));
        } else {
            let index = self.random.size_below(3);
            self.snapshots.swap_remove(index);
        }
        Ok(())
    }

    fn read_snapshot(&mut self) -> Result<(), Error> {
        let Some((snapshot, map)) = self.snapshots.last() else {
            return Ok(());
        };
        let (key, keys) = (self.random.key(), self.random.keys());
        let most = self.random.size_below(100);
        match self.random.below(6) {
            0 => assert_eq!(snapshot.count(keys.clone()), rows(map, keys).len() as u64),
            1 => assert_page(&snapshot.page(keys.clone(), most)?, &rows(map, keys), most),
            2 => {
                let read: Result<Vec<_>, _> = snapshot.range(keys.clone()).collect();
                assert_eq!(read?, rows(map, keys));
            }
            3 => {
                assert_eq!(snapshot.first_key_value()?, first_row(map));
                assert_eq!(snapshot.is_empty(), map.is_empty());
            }
            4 => assert_eq!(snapshot.contains_key(key), map.contains_key(&key)),
            _ => assert_eq!(snapshot.get(key), map.get(&key).copied()),
        }
        Ok(())
    }

    fn call(&mut self) -> Result<(), Error> {
        match self.random.below(100) {
            0 => self.open_or_close(),
            1 => {
                self.caller = self.store.caller()?;
                Ok(())
            }
            2 => Ok(self.store.sweep()?),
            3 => self.retain(),
            4..=29 => self.read_snapshot(),
            30..=31 => self.write_batch(),
            32..=49 => self.write(),
            50..=64 => {
                self.change();
                Ok(())
            }
            65..=69 => self.insert(),
            _ => self.read(),
        }
    }
}

fn first_row(map: &Map) -> Option<(u64, Value)> {
    map.first_key_value().map(|(key, value)| (*key, *value))
}

fn assert_page(page: &cupolanettle::Page, rows: &[(u64, Value)], most: usize) {
    assert_eq!(page.rows, rows[..most.min(rows.len())]);
    assert_eq!(page.next, rows.get(most).map(|row| row.0));
}

fn play(options: Options) -> Result<(), Error> {
    let mut play = Play::new(options.open()?)?;
    for _ in 0..CALLS {
        play.call()?;
    }
    let all: Result<Vec<_>, _> = play.caller.range(..)?.collect();
    assert_eq!(all?, rows(&play.map, 0..=u64::MAX));
    let copy = Options::new().open()?;
    play.caller.snapshot()?.copy_to(&copy)?;
    let all: Result<Vec<_>, _> = copy.snapshot()?.into_iter().collect();
    assert_eq!(all?, rows(&play.map, 0..=u64::MAX));
    Ok(())
}

#[test]
fn a_thread_merges() -> Result<(), Error> {
    play(Options::new().keys(4_000).epoch(64))
}

#[test]
fn calls_merge() -> Result<(), Error> {
    play(Options::new().keys(4_000).epoch(64).merge_in_calls())
}
