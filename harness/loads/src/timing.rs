//! Rounds of one part of loading both ways, one after the other in one process.

use crate::exports::{self, Part, Way, WAYS};
use measure::{by_turns, spread, Spread};
use std::time::Instant;

/// A run asks at least so many records.
const CALLS: usize = 20_000;

pub struct Times {
    /// Nanoseconds a record, the medians: bit by bit, from the words.
    pub each: [f64; 2],
    /// The time bit by bit over that from the words in the same round.
    pub ratio: Spread,
}

/// Runs one round more than `rounds`; the first is not counted.
pub fn time(part: Part, records: &[Vec<u8>], rounds: usize) -> Result<Times, String> {
    let passes = CALLS.div_ceil(records.len());
    let run = |way: Way| {
        let start = Instant::now();
        exports::run(part, way, records, passes);
        Ok(1e9 * start.elapsed().as_secs_f64() / (passes * records.len()) as f64)
    };
    let all = by_turns(rounds + 1, &WAYS, run)?;
    let counted = &all[1..];
    Ok(Times {
        each: [0, 1].map(|way| spread(counted.iter().map(|round| round[way]).collect()).1),
        ratio: spread(counted.iter().map(|round| round[0] / round[1]).collect()),
    })
}
