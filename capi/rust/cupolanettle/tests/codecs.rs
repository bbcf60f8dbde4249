//! Codecs, by the cases that the tests of all languages share, and by the order of keys.
use cupolanettle::codec::{self, Bytes63, KeyCodec, Text8, ValueCodec};
use cupolanettle::{BadBytes, Error, Options, Value};
use std::cmp::Reverse;
use std::collections::BTreeMap;
use std::ops::RangeFull;

const CASES: &str = include_str!("../../../tests/codecs.txt");

/// In place of an input or of words.
const REFUSED: &str = "refused";

/// The lines of the table, each with its kind, its input and its words.
fn cases() -> Vec<(&'static str, &'static str, &'static str)> {
    let lines = CASES.lines().filter(|line| !line.is_empty() && !line.starts_with('#'));
    lines
        .map(|line| {
            let (kind, rest) = line.split_once(' ').unwrap();
            let (input, words) = rest.split_once(' ').unwrap();
            (kind, input, words)
        })
        .collect()
}

/// `-` for none, `HH*N` for a byte so many times, else two digits for each.
fn bytes_of(input: &str) -> Vec<u8> {
    let byte = |digits| u8::from_str_radix(digits, 16).unwrap();
    match input.split_once('*') {
        None if input == "-" => Vec::new(),
        None => (0..input.len()).step_by(2).map(|at| byte(&input[at..at + 2])).collect(),
        Some((digits, times)) => vec![byte(digits); times.parse().unwrap()],
    }
}

fn words_of(words: &str) -> Vec<u64> {
    let word = |digits: &str| {
        assert_eq!(digits.len(), 16);
        u64::from_str_radix(digits, 16).unwrap()
    };
    words.split(' ').map(word).collect()
}

/// Encodes the key and decodes it, and answers it with its one word.
fn key<K: KeyCodec>(input: K, words: &str, is_alike: impl Fn(K, K) -> bool) -> u64 {
    let words = words_of(words);
    assert_eq!([input.to_key()], words[..]);
    assert!(is_alike(K::from_key(words[0]), input));
    words[0]
}

/// Encodes the value and decodes it, or tells that the words are none.
fn value<V: ValueCodec>(input: Option<V>, words: &str, is_alike: impl Fn(V, V) -> bool) {
    let words = Value::try_from(&words_of(words)[..]).unwrap();
    let found = V::from_value(&words);
    assert_eq!(found.is_some(), input.is_some(), "{words:?}");
    if let (Some(found), Some(input)) = (found, input) {
        assert_eq!(input.to_value(), words);
        assert!(is_alike(found, input));
    }
}

fn pair_of(input: &str) -> (u32, u32) {
    let (first, second) = input.split_once(',').unwrap();
    (first.parse().unwrap(), second.parse().unwrap())
}

fn has_same_bits(one: f64, other: f64) -> bool {
    one.to_bits() == other.to_bits()
}

fn value_or_refusal<V: std::str::FromStr>(input: &str) -> Option<V> {
    (input != REFUSED).then(|| input.parse().ok().unwrap())
}

/// Tests one case; answers the word, if it is one of a key.
fn play(kind: &str, input: &str, words: &str) -> Option<u64> {
    match kind {
        "signed" => Some(key::<i64>(input.parse().unwrap(), words, |one, other| one == other)),
        "pair" => Some(key(pair_of(input), words, |one, other| one == other)),
        "float" => Some(key(input.parse().unwrap(), words, has_same_bits)),
        "text8" if words == REFUSED => {
            assert_eq!(Text8::try_from(&bytes_of(input)[..]), Err(BadBytes));
            None
        }
        "text8" => {
            let text = Text8::try_from(&bytes_of(input)[..]).unwrap();
            Some(key(text, words, |one, other| one == other))
        }
        "value_signed" => {
            value::<i64>(value_or_refusal(input), words, |one, other| one == other);
            None
        }
        "value_float" => {
            value(value_or_refusal(input), words, has_same_bits);
            None
        }
        "bytes63" if words == REFUSED => {
            assert_eq!(Bytes63::try_from(&bytes_of(input)[..]), Err(BadBytes));
            None
        }
        "bytes63" => {
            let bytes = (input != REFUSED).then(|| bytes_of(input));
            let bytes = bytes.map(|bytes| Bytes63::try_from(&bytes[..]).unwrap());
            value(bytes, words, |one, other| one == other && one[..] == other[..]);
            None
        }
        _ => panic!("{kind}: no such codec"),
    }
}

#[test]
fn the_cases_of_all_languages() {
    let mut keys = BTreeMap::<_, Vec<_>>::new();
    let mut counts = BTreeMap::new();
    for (kind, input, words) in cases() {
        keys.entry(kind).or_default().extend(play(kind, input, words));
        *counts.entry(kind).or_insert(0) += 1;
    }
    let kinds = ["bytes63", "float", "pair", "signed", "text8", "value_float", "value_signed"];
    assert!(counts.keys().eq(kinds.iter()));
    assert!(counts.values().all(|count| *count >= 8));
    for (kind, keys) in keys {
        assert!(keys.windows(2).all(|pair| pair[0] < pair[1]), "{kind}");
    }
}

/// Each number is a key of each kind, and keys are in the order of what they are of.
#[test]
fn each_key_is_one_of_each_kind() {
    let mut words: Vec<u64> = (0..64).flat_map(|bit| [1 << bit, u64::MAX >> bit]).collect();
    words.extend((0..64).map(|bit| u64::MAX << bit));
    words.extend((0..1_000_u64).map(|number| number.wrapping_mul(0x9e37_79b9_7f4a_7c15)));
    words.sort_unstable();
    words.dedup();
    for pair in words.windows(2) {
        let (low, high) = (pair[0], pair[1]);
        assert_eq!(u64::from_key(low).to_key(), low);
        assert_eq!(i64::from_key(low).to_key(), low);
        assert_eq!(f64::from_key(low).to_key(), low);
        assert_eq!(<(u32, u32)>::from_key(low).to_key(), low);
        assert_eq!(Text8::from_key(low).to_key(), low);
        assert_eq!(Reverse::<i64>::from_key(low).to_key(), low);
        assert!(i64::from_key(low) < i64::from_key(high));
        assert!(f64::from_key(low).total_cmp(&f64::from_key(high)).is_lt());
        assert!(<(u32, u32)>::from_key(low) < <(u32, u32)>::from_key(high));
        assert!(Text8::from_key(low) < Text8::from_key(high));
        assert!(Text8::from_key(low)[..] < Text8::from_key(high)[..]);
        assert!(Reverse::<i64>::from_key(low) < Reverse::from_key(high));
        assert!(Reverse::<i64>::from_key(low).0 > Reverse::<i64>::from_key(high).0);
    }
}

#[test]
fn texts() -> Result<(), BadBytes> {
    let words = ["", "a", "a b", "ab", "abcdefgh", "b", "é", "€uro", "😀😀"];
    for pair in words.windows(2) {
        let (one, other) = (Text8::try_from(pair[0])?, Text8::try_from(pair[1])?);
        assert!(one < other && one.to_key() < other.to_key());
        assert_eq!((one.to_str(), one.len()), (Ok(pair[0]), pair[0].len()));
        assert_eq!((one.to_string(), one.as_ref()), (pair[0].to_owned(), pair[0].as_bytes()));
    }
    assert_eq!(Text8::default().to_key(), 0);
    assert_eq!(format!("{:?}", Text8::try_from("a\"€")?), r#"b"a\"\xe2\x82\xac""#);
    // A zero within is a byte as others are.
    let text = Text8::try_from("a\0b")?;
    assert_eq!((Text8::from_key(text.to_key()), &text[..]), (text, &b"a\0b"[..]));
    assert_eq!(Text8::try_from("a\0"), Err(BadBytes));
    assert_eq!(Text8::try_from("ninebytes"), Err(BadBytes));
    assert_eq!(Text8::from_key(u64::MAX << 56).to_string(), "\u{fffd}");
    Ok(())
}

#[test]
fn bytes_of_each_length() -> Result<(), BadBytes> {
    let all: Vec<u8> = (0..=64).collect();
    for length in 0..=Bytes63::MOST_BYTES {
        for slice in [&all[..length], &all[1..=length], &vec![0; length], &vec![0xff; length]] {
            let bytes = Bytes63::try_from(slice)?;
            let value = bytes.to_value();
            assert_eq!((&bytes[..], value.len()), (slice, length / 8 + 1));
            assert_eq!(Bytes63::from_value(&value), Some(bytes));
            assert_eq!(bytes.as_ref(), slice);
        }
    }
    assert_eq!(Bytes63::try_from(&all[..64]), Err(BadBytes));
    assert_eq!(Bytes63::default(), Bytes63::try_from("")?);
    let greeting = Bytes63::try_from("grüß Gott")?;
    assert_eq!((greeting.to_str(), greeting.to_string()), (Ok("grüß Gott"), "grüß Gott".into()));
    assert_eq!(format!("[{:4}]", Bytes63::try_from("ab")?), "[ab  ]");
    Ok(())
}

/// They are ordered as slices, whatever zeros they end with.
#[test]
fn bytes_are_ordered_as_slices() -> Result<(), BadBytes> {
    let slices: [&[u8]; 8] =
        [&[], &[0], &[0, 0], &[0, 0, 1], &[0, 1], &[1], &[1, 0], &[0xff; Bytes63::MOST_BYTES]];
    for (one, other) in slices.iter().zip(&slices[1..]) {
        assert!(one < other);
        assert!(Bytes63::try_from(*one)? < Bytes63::try_from(*other)?);
    }
    Ok(())
}

/// A value that anything else has made decodes to what encodes to it, or to nothing.
#[test]
fn values_of_others() {
    let mut random = 1_u64;
    let mut decoded = 0;
    for round in 0..20_000 {
        let mut words = [0; Value::MOST_WORDS];
        for word in &mut words {
            random = random.wrapping_mul(6_364_136_223_846_793_005).wrapping_add(1);
            *word = random >> 1;
        }
        // Often a length that fits, with zeros behind it or not.
        let length = round % 9;
        let told = round / 9 % 70;
        words[0] = words[0] & !0xff | told;
        words[length.saturating_sub(1) as usize] &= u64::MAX >> (random >> 58);
        let words = &words[..(length as usize).clamp(1, Value::MOST_WORDS)];
        let value = Value::try_from(words).unwrap();
        if let Some(bytes) = Bytes63::from_value(&value) {
            assert_eq!(bytes.to_value(), value);
            decoded += 1;
        }
        assert_eq!(f64::from_value(&value).is_some(), words.len() == 1);
        assert_eq!(
            i64::from_value(&value).map(|number| number.to_value()),
            u64::from_value(&value).map(|word| word.to_value())
        );
    }
    assert!(decoded > 100);
}

#[test]
fn ranges_of_keys() -> Result<(), Error> {
    let caller = Options::new().keys(1_000).epoch(64).open()?.caller()?;
    for number in -50..50_i64 {
        caller.put(number.to_key(), number.to_value())?;
    }
    assert_eq!(caller.count(codec::keys(-10..10_i64)), 20);
    assert_eq!(caller.count(codec::keys(-10..=10_i64)), 21);
    assert_eq!(caller.count(codec::keys(..0_i64)), 50);
    assert_eq!(caller.count(codec::keys(40_i64..)), 10);
    assert_eq!(caller.count(codec::keys::<i64>(RangeFull)), 100);
    assert_eq!(caller.count(codec::keys(i64::MIN..=i64::MAX)), 100);
    let rows = caller.range(codec::keys(-3..=3_i64))?;
    let numbers = rows.map(|row| row.map(|(key, value)| (i64::from_key(key), value)));
    for (row, wanted) in numbers.zip(-3..) {
        let (number, value) = row?;
        assert_eq!((number, i64::from_value(&value)), (wanted, Some(wanted)));
    }
    Ok(())
}

#[test]
fn ranges_of_prefixes() -> Result<(), Error> {
    let caller = Options::new().keys(1_000).epoch(64).open()?.caller()?;
    let words = ["", "a", "ab", "abc", "abcdefgh", "ab\u{7f}", "ac", "b"];
    for word in words {
        caller.put(Text8::try_from(word)?.to_key(), 1)?;
    }
    caller.put(u64::MAX, 1)?;
    for prefix in ["", "a", "ab", "abcdefgh", "b", "c"] {
        let wanted = words.iter().filter(|word| word.starts_with(prefix)).count() as u64;
        let found = caller.count(Text8::try_from(prefix)?.prefixed());
        assert_eq!(found, wanted + u64::from(prefix.is_empty()), "{prefix}");
    }
    assert_eq!(Text8::from_key(u64::MAX).prefixed(), u64::MAX..=u64::MAX);
    Ok(())
}
