//! Counts the words of a text in four threads, and prints them in the order of the alphabet.
//!
//!     cargo run --offline --example words -- "some text"
//!
//! A key is a number. A codec makes one of a word, so that numbers are in the order of words. Words
//! are counted by their first eight bytes.
use cupolanettle::codec::{KeyCodec, Text8};
use cupolanettle::{Error, Options, Store};
use std::thread;

const TEXT: &str = "the dog and the fox and the lazy cat saw the other dog on and off";
const THREADS: usize = 4;

/// Counts every fourth word, with a caller of its own. No addition of another thread is lost.
fn count_words(store: &Store, text: &str, own: usize) -> Result<(), Error> {
    let caller = store.caller()?;
    for word in text.split_whitespace().skip(own).step_by(THREADS) {
        let first = word.len().min(Text8::MOST_BYTES);
        caller.add(Text8::try_from(&word.as_bytes()[..first])?.to_key(), 1)?;
    }
    Ok(())
}

fn main() -> Result<(), Error> {
    let text = std::env::args().nth(1).unwrap_or_else(|| TEXT.to_owned());
    let store = Options::new().open()?;
    thread::scope(|scope| {
        let counting: Vec<_> = (0..THREADS)
            .map(|own| {
                let (store, text) = (&store, &text);
                scope.spawn(move || count_words(store, text, own))
            })
            .collect();
        counting.into_iter().try_for_each(|thread| thread.join().expect("no panic"))
    })?;
    // All counts as they are at one moment.
    for row in store.snapshot()?.range(..) {
        let (key, count) = row?;
        println!("{} {}", Text8::from_key(key), count[0]);
    }
    Ok(())
}
