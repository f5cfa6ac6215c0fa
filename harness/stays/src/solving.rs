//! One ending by the proved library with each of the settings, in rounds.

use crate::endings::{record, BUDGET, INTERVAL, LIMIT, RULE, SETTINGS};
use calls::line::Verdict;
use calls::table::LARGEST_POOL;
use calls::{Fields, Stay};
use measure::{by_turns, spread};
use std::time::Instant;
use uttt::{ffi, ours};

/// What a setting gave, and its milliseconds, the median of all rounds.
#[derive(Clone, Copy)]
pub struct Solved {
    pub fields: Fields,
    pub time: f64,
}

impl Solved {
    pub fn is_solved(&self) -> bool {
        self.fields.cause == 0
    }
}

pub fn search(seed: u64, stay: Stay, pool: &mut [u32]) -> Fields {
    let (record, (staying, margin)) = (record(seed), stay.passed(0.0));
    let (from, bytes, to, length) = (record.as_ptr(), record.len(), pool.as_mut_ptr(), pool.len());
    // SAFETY: pointers and lengths belong together, and the buffers are apart.
    let answer = unsafe { ffi::uttt_search(from, bytes, to, length, RULE, LIMIT, BUDGET, INTERVAL, staying, margin) };
    assert_eq!(answer.code, 0, "ending {} was refused", seed);
    ours::fields(answer.result).expect("a verdict has a number")
}

/// The ending with each of the settings, in their order. It fails if a field is not the original's in some round, or if
/// two settings give two verdicts.
pub fn solve(seed: u64, rounds: usize, pool: &mut [u32]) -> Result<[Solved; SETTINGS.len()], String> {
    let due =
        SETTINGS.map(|(_, stay)| oracle::search(&record(seed), RULE, LARGEST_POOL, LIMIT, BUDGET, INTERVAL, stay));
    let places: [usize; SETTINGS.len()] = std::array::from_fn(|at| at);
    let times = by_turns(rounds, &places, |at| {
        let ((name, stay), start) = (SETTINGS[at], Instant::now());
        let fields = search(seed, stay, pool);
        let time = 1e3 * start.elapsed().as_secs_f64();
        let wrong = || format!("ending {}, {}: {}\noriginal: {}", seed, name, fields, due[at]);
        (fields == due[at]).then_some(time).ok_or_else(wrong)
    })?;
    let mut known = due.iter().map(|fields| fields.verdict).filter(|verdict| *verdict != Verdict::Unknown);
    let first = known.next();
    if known.any(|verdict| Some(verdict) != first) {
        return Err(format!("ending {} has two verdicts", seed));
    }
    let time = |at: usize| spread(times.iter().map(|round| round[at]).collect()).1;
    Ok(places.map(|at| Solved { fields: due[at], time: time(at) }))
}
