//! A store of texts: keys and values of any bytes, up to 4 MiB, over the map of numbers.
//!
//!     cargo run --offline --example texts
//!
//! Texts whose keys have one hash are a chain: they stand one behind another, cut into rows of 64
//! bytes, at the numbers that begin with the hash. Whoever sets a text reads its chain and writes
//! those rows of it that change, in one transaction.
//!
//!     number of a row   hash of the key, 48 bits | place of the row, 16 bits
//!     chain, in bytes   its size, 8 | sizes of key and value, 16 | key | value | next text | ..
use cupolanettle::{Error, Options, Store, Transaction, Value};
use std::collections::BTreeMap;
use std::thread;

const ROW: usize = 64;
const WORD: usize = 8;
const PLACE_BITS: u32 = 16;
const HASH_BITS: u32 = 4; // so few that chains are long; 48 for use

type ByKey<'a> = BTreeMap<&'a [u8], &'a [u8]>;

fn word_of(bytes: &[u8]) -> u64 {
    let mut word = [0; WORD];
    word[..bytes.len()].copy_from_slice(bytes);
    u64::from_le_bytes(word)
}

fn value_of(row: &[u8]) -> Value {
    let words: Vec<u64> = row.chunks(WORD).map(word_of).collect();
    Value::try_from(&words[..]).expect("a row has 1 to 64 bytes")
}

/// Takes so many bytes off the chain.
fn take<'a>(chain: &mut &'a [u8], size: usize) -> &'a [u8] {
    let (taken, rest) = chain.split_at(size);
    *chain = rest;
    taken
}

fn take_size(chain: &mut &[u8]) -> usize {
    usize::try_from(word_of(take(chain, WORD))).expect("a size")
}

fn texts_of(chain: &[u8]) -> ByKey<'_> {
    let (mut texts, mut rest) = (ByKey::new(), chain.get(WORD..).unwrap_or(&[]));
    while !rest.is_empty() {
        let (key, text) = (take_size(&mut rest), take_size(&mut rest));
        texts.insert(take(&mut rest, key), take(&mut rest, text));
    }
    texts
}

fn chain_of(texts: &ByKey<'_>) -> Vec<u8> {
    let parts = texts.iter().map(|(key, text)| {
        [&key.len().to_le_bytes(), &text.len().to_le_bytes(), *key, *text].concat()
    });
    let body = parts.collect::<Vec<_>>().concat();
    let size = WORD + body.len();
    assert!(size <= ROW << PLACE_BITS, "the text is too long");
    if body.is_empty() {
        return body;
    }
    [&size.to_le_bytes(), &body[..]].concat()
}

/// The number of the first row of the key's chain: its hash is FNV-1a.
fn place_of(key: &[u8]) -> u64 {
    let hash = key.iter().fold(0xcbf2_9ce4_8422_2325, |hash: u64, byte| {
        (hash ^ u64::from(*byte)).wrapping_mul(0x100_0000_01b3)
    });
    (hash % (1 << HASH_BITS)) << PLACE_BITS
}

fn row_of(chain: &[u8], at: usize) -> &[u8] {
    chain.get(at..chain.len().min(at + ROW)).unwrap_or(&[])
}

/// The texts of a transaction.
struct Texts<'a, 'b>(&'a mut Transaction<'b>);

impl Texts<'_, '_> {
    fn get(&mut self, key: &[u8]) -> Result<Option<Vec<u8>>, Error> {
        let chain = self.chain(place_of(key))?;
        Ok(texts_of(&chain).get(key).map(|text| text.to_vec()))
    }

    /// Sets the text; none removes it. Whether there was one.
    fn set(&mut self, key: &[u8], text: Option<&[u8]>) -> Result<bool, Error> {
        let place = place_of(key);
        let old = self.chain(place)?;
        let mut texts = texts_of(&old);
        let before = texts.remove(key);
        texts.extend(text.map(|text| (key, text)));
        self.write(place, &old, &chain_of(&texts))?;
        Ok(before.is_some())
    }

    fn chain(&mut self, place: u64) -> Result<Vec<u8>, Error> {
        let Some(first) = self.0.get(place)? else { return Ok(Vec::new()) };
        let size = usize::try_from(first[0]).expect("a size");
        let more: Vec<u64> = (place + 1..place + size.div_ceil(ROW) as u64).collect();
        let rows = self.0.get_many(&more)?;
        let words = Some(first).into_iter().chain(rows.into_iter().flatten());
        let mut chain: Vec<u8> =
            words.flat_map(|row| row.to_vec()).flat_map(u64::to_le_bytes).collect();
        chain.truncate(size);
        Ok(chain)
    }

    /// Writes the rows of the new chain that are not those of the old one.
    fn write(&mut self, place: u64, old: &[u8], new: &[u8]) -> Result<(), Error> {
        let size = old.len().max(new.len());
        for (number, at) in (place..).zip((0..size).step_by(ROW)) {
            let row = row_of(new, at);
            if row.is_empty() {
                self.0.remove(number)?;
            } else if row != row_of(old, at) {
                self.0.put(number, value_of(row))?;
            }
        }
        Ok(())
    }
}

const THREADS: usize = 4;
const TEXTS: usize = 100;

fn name_of(number: usize) -> Vec<u8> {
    format!("text {number}").into_bytes()
}

fn count_of(text: Option<Vec<u8>>) -> usize {
    text.map_or(0, |text| String::from_utf8_lossy(&text).parse().expect("a number"))
}

/// Every fourth text is set, and counted, in one transaction.
fn fill(store: &Store, own: usize) -> Result<(), Error> {
    let caller = store.caller()?;
    for number in (own..TEXTS).step_by(THREADS) {
        caller.transact(|rows| {
            let mut texts = Texts(rows);
            texts.set(
                &name_of(number),
                Some(vec![number.to_string(); number].join(" ").as_bytes()),
            )?;
            let count = count_of(texts.get(b"texts")?) + 1;
            texts.set(b"texts", Some(count.to_string().as_bytes()))
        })?;
    }
    Ok(())
}

/// Reads all texts at one moment. There are as many as were counted.
fn look(store: &Store) -> Result<String, Error> {
    store.caller()?.transact(|rows| {
        let mut texts = Texts(rows);
        let (mut count, mut bytes) = (0, 0);
        for number in 0..TEXTS {
            if let Some(text) = texts.get(&name_of(number))? {
                count += 1;
                bytes += text.len();
            }
        }
        assert_eq!(count, count_of(texts.get(b"texts")?));
        Ok(format!("{count} texts of {bytes} bytes"))
    })
}

/// Removes all texts at one moment, and one that is not there. How many there were.
fn clear(store: &Store) -> Result<usize, Error> {
    store.caller()?.transact(|rows| {
        let mut texts = Texts(rows);
        let mut removed = 0;
        for name in (0..=TEXTS).map(name_of).chain([b"texts".to_vec()]) {
            removed += usize::from(texts.set(&name, None)?);
        }
        Ok(removed)
    })
}

fn main() -> Result<(), Error> {
    let store = Options::new().open()?;
    thread::scope(|scope| {
        let filling: Vec<_> = (0..THREADS)
            .map(|own| {
                let store = &store;
                scope.spawn(move || fill(store, own))
            })
            .collect();
        while filling.iter().any(|thread| !thread.is_finished()) {
            look(&store)?;
        }
        filling.into_iter().try_for_each(|thread| thread.join().expect("no panic"))
    })?;
    println!("{}", look(&store)?);
    let caller = store.caller()?;
    let seven = caller.transact(|rows| Texts(rows).get(&name_of(7)))?;
    println!("{}", String::from_utf8_lossy(&seven.unwrap_or_default()));
    println!("{} removed, {} rows left", clear(&store)?, caller.count(..));
    Ok(())
}
