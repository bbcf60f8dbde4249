//! A leaderboard: four threads score for players, and the best three are read while they do.
//!
//!     cargo run --offline --example leaderboard
//!
//! A player's score stands at the player's number. Ranges go by rising key, so there is a second row
//! for each player, at a key that is the smaller the greater the score is: the ranking.
use cupolanettle::{Batch, Caller, Error, Options, Store};
use std::thread;

const PLAYERS: u64 = 100;
const ROUNDS: u64 = 50;
const THREADS: usize = 4;

/// The key of the sum of all scores.
const ALL: u64 = PLAYERS;
const RANKING: u64 = 1 << 63;
const MOST: u64 = (1 << 31) - 1;

fn place_of(score: u64, player: u64) -> u64 {
    RANKING | (MOST - score) << 32 | player
}

fn player_at(place: u64) -> u64 {
    place & u64::from(u32::MAX)
}

/// Adds to a score, and moves the player up in the ranking by a batch: no read finds the player twice
/// there, or not at all.
fn win(caller: &Caller, player: u64, points: u64) -> Result<(), Error> {
    let score = caller.add(player, points)?;
    let mut batch = Batch::new();
    if let Some(before) = score.before {
        batch.remove(place_of(before[0], player));
    }
    if let Some(after) = score.after {
        batch.set(place_of(after[0], player), after);
    }
    caller.batch(&batch)?;
    caller.add(ALL, points)?;
    Ok(())
}

/// A thread has every fourth player. In each round a player wins its number of points, plus one.
fn play(store: &Store, own: u64) -> Result<(), Error> {
    let caller = store.caller()?;
    for _ in 0..ROUNDS {
        for player in (own..PLAYERS).step_by(THREADS) {
            win(&caller, player, player + 1)?;
        }
    }
    Ok(())
}

/// The first players of the ranking at one moment, and their scores.
fn best(store: &Store, count: usize) -> Result<Vec<(u64, u64)>, Error> {
    let mut players = Vec::new();
    for row in store.snapshot()?.range(RANKING..).take(count) {
        let (place, value) = row?;
        players.push((player_at(place), value[0]));
    }
    Ok(players)
}

fn main() -> Result<(), Error> {
    let store = Options::new().open()?;
    thread::scope(|scope| {
        let playing: Vec<_> = (0..THREADS as u64)
            .map(|own| {
                let store = &store;
                scope.spawn(move || play(store, own))
            })
            .collect();
        while playing.iter().any(|thread| !thread.is_finished()) {
            best(&store, 3)?; // whoever they are by now
        }
        playing.into_iter().try_for_each(|thread| thread.join().expect("no panic"))
    })?;
    for (player, score) in best(&store, 3)? {
        println!("player {player}: {score}");
    }
    let all = store.caller()?.get(ALL).map_or(0, |sum| sum[0]);
    println!("all: {all}");
    Ok(())
}
