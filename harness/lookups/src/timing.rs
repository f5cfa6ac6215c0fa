//! Rounds of lookups by both sides, one after the other in one process.

use crate::books::Book;
use crate::sides::{run, Side, SIDES};
use measure::{by_turns, spread, Spread};
use std::time::Instant;

/// A run goes through at least so many entries; a book of fewer than the least counts as one of that many.
const ENTRIES: usize = 1_000_000;
const LEAST: usize = 50;

pub struct Times {
    /// Nanoseconds a lookup, the medians: ours, the loop.
    pub each: [f64; 2],
    /// The loop's time over ours in the same round.
    pub ratio: Spread,
}

/// Runs one round more than `rounds`; the first is not counted.
pub fn time(book: &Book, rounds: usize) -> Result<Times, String> {
    let entries = LEAST.max(book.count() as usize);
    let passes = ENTRIES.div_ceil(entries * book.questions.len());
    let one = |side: Side| {
        let start = Instant::now();
        run(side, book, passes);
        Ok(1e9 * start.elapsed().as_secs_f64() / (passes * book.questions.len()) as f64)
    };
    let all = by_turns(rounds + 1, &SIDES, one)?;
    let counted = &all[1..];
    Ok(Times {
        each: [0, 1].map(|side| spread(counted.iter().map(|round| round[side]).collect()).1),
        ratio: spread(counted.iter().map(|round| round[1] / round[0]).collect()),
    })
}
