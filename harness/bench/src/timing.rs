//! Rounds of one search on both sides, one after the other in one process.

use crate::searches::Search;
use crate::{memory, sides};
use calls::Fields;
use measure::{by_turns, spread, Spread};
use std::fs;
use std::time::Instant;

#[derive(Clone, Copy, Debug, PartialEq)]
enum Side {
    Original,
    /// The library with a pool whose pages were touched before.
    Touched,
    /// The library with a pool made and given back within the timing.
    Fresh,
}

/// What one side took in one round.
#[derive(Clone, Copy)]
struct Run {
    side: Side,
    seconds: f64,
    faults: f64,
}

/// Medians over all rounds, and the fields that all runs gave.
pub struct Outcome {
    pub fields: Fields,
    pub rounds: usize,
    /// The original with new pages, with kept ones; the library with a fresh pool, with a touched one.
    pub seconds: [f64; 4],
    pub faults: [f64; 4],
    /// The original's time over the library's in the same round: both with new pages.
    pub fresh: Spread,
    /// The original with new pages, the library with a touched pool.
    pub touched: Spread,
    /// The original with kept pages, the library with a touched pool.
    pub kept: Spread,
}

/// Runs `rounds` rounds with new pages for the original and as many with kept ones. All runs must give the
/// same nine fields.
pub fn time(search: &Search, rounds: usize, pool: &mut [u32]) -> Result<Outcome, String> {
    let mut bench = Bench { search, pool, pages: memory::new_pages, agreed: None };
    let new = by_turns(rounds, &[Side::Original, Side::Touched, Side::Fresh], |side| bench.run(side))?;
    bench.pages = memory::kept_pages;
    bench.run(Side::Original)?;
    let kept = by_turns(rounds, &[Side::Original, Side::Touched], |side| bench.run(side))?;
    let middle = |all: &[Vec<Run>], side, part: fn(&Run) -> f64| {
        spread(all.iter().flatten().filter(|r| r.side == side).map(part).collect()).1
    };
    let four = |part| {
        [(&new, Side::Original), (&kept, Side::Original), (&new, Side::Fresh), (&new, Side::Touched)]
            .map(|(all, side)| middle(all, side, part))
    };
    Ok(Outcome {
        fields: bench.agreed.expect("a search was run"),
        rounds,
        seconds: four(|r| r.seconds),
        faults: four(|r| r.faults),
        fresh: ratio(&new, Side::Fresh),
        touched: ratio(&new, Side::Touched),
        kept: ratio(&kept, Side::Touched),
    })
}

struct Bench<'a> {
    search: &'a Search,
    pool: &'a mut [u32],
    /// Decides, before each run, which pages the original gets.
    pages: fn(),
    agreed: Option<Fields>,
}

impl Bench<'_> {
    fn run(&mut self, side: Side) -> Result<Run, String> {
        (self.pages)();
        let (faults, start) = (faults(), Instant::now());
        let fields = match side {
            Side::Original => sides::original(self.search),
            Side::Touched => sides::ours(self.search, self.pool),
            Side::Fresh => sides::ours_fresh(self.search),
        };
        let seconds = start.elapsed().as_secs_f64();
        let faults = self::faults() - faults;
        match self.agreed.replace(fields) {
            Some(before) if before != fields => {
                Err(format!("{}, {:?}: {}\nthe run before it: {}", self.search.name, side, fields, before))
            }
            _ => Ok(Run { side, seconds, faults }),
        }
    }
}

/// Pages that this process was given so far without a disk; 0 where the system does not tell.
fn faults() -> f64 {
    let stat = fs::read_to_string("/proc/self/stat").unwrap_or_default();
    let after_name = stat.rsplit(") ").next().unwrap_or_default();
    after_name.split_whitespace().nth(7).and_then(|count| count.parse().ok()).unwrap_or(0.0)
}

/// The original's time over that of `side`, round by round.
fn ratio(all: &[Vec<Run>], side: Side) -> Spread {
    let seconds = |round: &[Run], wanted| round.iter().find(|r| r.side == wanted).map_or(f64::NAN, |r| r.seconds);
    spread(all.iter().map(|round| seconds(round, Side::Original) / seconds(round, side)).collect())
}
