//! Options, their ranges, and what a store makes of them.
use cupolanettle::{Error, OpenError, Options, Statistics};
use std::time::Duration;

/// The most keys and versions of a store.
const MOST: usize = 4_194_304;

fn refusal(options: Options) -> Option<OpenError> {
    options.open().err()
}

/// What a store of these options tells of itself.
fn stats(options: Options) -> Result<Statistics, Error> {
    Ok(options.open()?.stats())
}

#[test]
fn keys_out_of_range() {
    assert_eq!(refusal(Options::new().keys(0)), Some(OpenError::Keys));
    assert_eq!(refusal(Options::new().keys(usize::MAX)), Some(OpenError::Keys));
    assert_eq!(refusal(Options::new().keys(MOST + 1)), Some(OpenError::Keys));
    // With the shortest epoch, which leaves most room.
    assert_eq!(refusal(Options::new().keys(MOST - 87)), Some(OpenError::Keys));
    assert_eq!(refusal(Options::new().keys(MOST - 87).epoch(4)), Some(OpenError::Keys));
    assert_eq!(refusal(Options::new().keys(MOST - 447).epoch(64)), Some(OpenError::Keys));
    assert_eq!(refusal(Options::new().keys(1).epoch(4).patience(64)), None);
    assert_eq!(Options::new(), Options::default());
}

#[test]
fn versions_out_of_range() {
    let refused = Some(OpenError::Versions);
    assert_eq!(refusal(Options::new().versions(0)), refused);
    assert_eq!(refusal(Options::new().versions(usize::MAX)), refused);
    assert_eq!(refusal(Options::new().keys(1_000).versions(MOST - 999)), refused);
    // An epoch that is not set has 4,096 writes at least.
    assert_eq!(refusal(Options::new().keys(1_000).versions(6 * 4_096 + 63)), refused);
    assert_eq!(refusal(Options::new().keys(1_000).versions(6 * 4_096 + 64)), None);
    assert_eq!(refusal(Options::new().keys(1_000).epoch(64).versions(6 * 64 + 63)), refused);
    assert_eq!(refusal(Options::new().keys(1_000).epoch(64).versions(6 * 64 + 64)), None);
}

#[test]
fn epochs_out_of_range() {
    for epoch in [0, 3, 65_537, usize::MAX] {
        assert_eq!(refusal(Options::new().epoch(epoch)), Some(OpenError::Epoch));
    }
}

#[test]
fn patience_out_of_range() {
    for patience in [65, usize::MAX] {
        assert_eq!(refusal(Options::new().patience(patience)), Some(OpenError::Patience));
    }
}

#[test]
fn waits_out_of_range() {
    const MOST_WAIT: u64 = 18_446_744_073_709;
    let options = |wait| Options::new().keys(1).epoch(4).wait(wait);
    let longest = Duration::from_millis(MOST_WAIT);
    assert_eq!(refusal(options(Duration::ZERO)), None);
    assert_eq!(refusal(options(Duration::from_nanos(1))), None);
    assert_eq!(refusal(options(longest)), None);
    assert_eq!(refusal(options(longest + Duration::from_nanos(1))), Some(OpenError::Wait));
    assert_eq!(refusal(options(Duration::MAX)), Some(OpenError::Wait));
    let text = OpenError::Wait.to_string();
    assert!(text.contains(&MOST_WAIT.to_string()), "{text}");
}

/// How many keys, and how many keys and versions, there is room for in an empty store.
#[test]
fn what_is_not_set_goes_by_the_keys() -> Result<(), Error> {
    let rooms = |options| -> Result<_, Error> {
        let now = stats(options)?;
        Ok((now.room_for_keys, now.room_for_versions - now.room_for_keys))
    };
    assert_eq!(rooms(Options::new())?, (100_000, 100_000));
    assert_eq!(rooms(Options::new().keys(50_000))?, (50_000, 50_000));
    assert_eq!(rooms(Options::new().keys(500_000).epoch(4))?, (500_000, 100_000));
    assert_eq!(rooms(Options::new().keys(1_000))?, (1_000, 6 * 4_096 + 64));
    assert_eq!(rooms(Options::new().keys(1_000).epoch(64))?, (1_000, 1_000));
    assert_eq!(rooms(Options::new().keys(400_000))?, (400_000, 6 * 25_000 + 64));
    assert_eq!(rooms(Options::new().keys(9).versions(30_000))?, (9, 30_000));
    Ok(())
}

/// The documentation names these bytes.
#[test]
fn the_memory_of_a_store() -> Result<(), Error> {
    const OF_ENTRY: u64 = 176;
    const OF_WRITE: u64 = 544;
    const OF_STORE: u64 = 64 << 10;
    for options in [Options::new().keys(1_000_000), Options::new().keys(1_000), Options::new()] {
        let now = stats(options.epoch(65_536))?;
        let (run, epoch) = (now.room_for_versions, 65_536);
        let told = OF_ENTRY * run + OF_WRITE * epoch + OF_STORE;
        assert!(now.bytes.abs_diff(told) < OF_STORE / 4, "{} and {told}", now.bytes);
    }
    // In MiB, as the examples have them.
    let mebibytes = |options| -> Result<_, Error> { Ok(stats(options)?.bytes.div_ceil(1 << 20)) };
    assert_eq!(mebibytes(Options::new())?, 37);
    assert_eq!(mebibytes(Options::new().keys(1_000))?, 7);
    assert_eq!(mebibytes(Options::new().keys(1_000_000))?, 264);
    assert_eq!(mebibytes(Options::new().keys(1_000).versions(1_000_000))?, 171);
    Ok(())
}
