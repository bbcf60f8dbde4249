//! Times as a type of their own.
use cupolanettle::{Error, Options, Time, Unseen};
use std::collections::HashSet;

#[test]
fn are_numbers_in_their_order() {
    let numbers = [0, 1, 2, u64::from(u32::MAX), 1 << 62, u64::MAX];
    let times = numbers.map(Time::from);
    assert!(times.windows(2).all(|pair| pair[0] < pair[1]));
    assert_eq!(times.map(u64::from), numbers);
    assert_eq!(HashSet::from(times).len(), numbers.len());
    assert_eq!((times[0], Time::default()), (Time::ZERO, Time::ZERO));
    for (time, number) in times.into_iter().zip(numbers) {
        assert_eq!(
            (time.to_string(), format!("{time:?}")),
            (number.to_string(), number.to_string())
        );
    }
    assert_eq!(format!("[{:>4}] [{:04?}]", times[2], times[2]), "[   2] [0002]");
}

/// What a caller had seen is seen by who follows its number, in any store that has come so far.
#[test]
fn go_along_as_numbers() -> Result<(), Error> {
    let store = Options::new().keys(100).epoch(4).open()?;
    let (writer, reader) = (store.caller()?, store.caller()?);
    for key in 0..50 {
        writer.put(key, key)?;
        let message = u64::from(writer.seen()).to_string();
        reader.follow(Time::from(message.parse::<u64>().unwrap()))?;
        assert!(reader.seen() >= writer.seen());
        assert_eq!(reader.get(key), Some(key.into()));
    }
    assert_eq!(reader.follow(Time::from(1_000_000)), Err(Unseen));
    Ok(())
}
