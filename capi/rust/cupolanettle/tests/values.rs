//! Values as slices of words.
use cupolanettle::{BadValue, Error, Options, Value};
use std::collections::{BTreeSet, HashSet};

#[test]
fn of_one_to_eight_words() -> Result<(), Error> {
    let words = [1, 2, 3, 4, 5, 6, 7, 8, 9];
    for length in 1..=Value::MOST_WORDS {
        assert_eq!(Value::try_from(&words[..length])?[..], words[..length]);
    }
    let refused: BadValue = Value::try_from(&words[..]).unwrap_err();
    assert_eq!(Value::try_from(&[][..]), Err(refused));
    assert_eq!(Value::from(7), Value::from([7]));
    assert_eq!(Value::from([0; 8]).len(), 8);
    Ok(())
}

#[test]
fn are_compared_as_slices() {
    let ordered = [
        Value::from(0),
        Value::from([0, 0]),
        Value::from([0, 1]),
        Value::from(1),
        Value::from([1, 0, 0]),
        Value::from(u64::MAX),
    ];
    assert!(ordered.windows(2).all(|pair| pair[0] < pair[1] && pair[0] != pair[1]));
    assert_eq!(BTreeSet::from(ordered).len(), ordered.len());
    let hashed = HashSet::from(ordered);
    assert_eq!(hashed.len(), ordered.len());
    // As they borrow as slices, they are found by them.
    assert!(hashed.contains(&[0, 1][..]));
    assert!(!hashed.contains(&[0, 2][..]));
    assert_eq!(format!("{:?}", ordered[2]), "[0, 1]");
    assert_eq!(ordered[4].iter().sum::<u64>(), 1);
    assert_eq!(ordered[4].as_ref(), [1, 0, 0]);
}

#[test]
fn keep_their_words_through_merges() -> Result<(), Error> {
    let store = Options::new().keys(100).epoch(4).open()?;
    let caller = store.caller()?;
    let words = [u64::MAX, 0, 1, 0, u64::MAX - 1, 0, 7, 0];
    for length in 1..=8 {
        caller.put(length, Value::try_from(&words[..usize::try_from(length).unwrap()])?)?;
    }
    for _ in 0..3 {
        for (key, value) in caller.range(1..=8)?.collect::<Result<Vec<_>, _>>()? {
            assert_eq!(value[..], words[..usize::try_from(key).unwrap()]);
        }
        store.sweep()?;
    }
    Ok(())
}

#[test]
fn are_gone_over() {
    let value = Value::from([1, 2, 3]);
    let mut sum = 0;
    for word in &value {
        sum += word;
    }
    assert_eq!((sum, (&value).into_iter().len()), (6, 3));
    assert_eq!(Vec::from(value), [1, 2, 3]);
    assert_eq!(Value::try_from(vec![1, 2, 3]), Ok(value));
    assert_eq!(Value::try_from(Vec::new()), Err(BadValue));
}
