//! Rounds of the same games on both sides, one after the other in one process.

use crate::games::POOL_WORDS;
use crate::sides::{again, alone, together, Passes, Results};
use calls::Games;
use measure::{by_turns, spread, Spread};
use std::time::Instant;

#[derive(Clone, Copy, Debug)]
enum Side {
    Together,
    Alone,
    Again,
}

#[derive(Clone, Copy)]
enum Pool {
    /// Made and given back within the timing, one for all eight games on either side.
    Fresh,
    /// Written from end to end before.
    Touched,
}

/// Milliseconds, the medians.
pub struct Times {
    pub fresh: Both,
    pub touched: Both,
    /// Both passes by lone searches, with a touched pool.
    pub again: f64,
}

pub struct Both {
    pub together: f64,
    pub alone: f64,
    /// The time of the lone searches over that of the call in the same round.
    pub ratio: Spread,
}

/// Runs one round more than `rounds`; the first is not counted. All runs must give the results that are due.
pub fn time(games: &Games, due: &Passes, touched: &mut [u32], rounds: usize) -> Result<Times, String> {
    let mut one = |side: Side, pool: Pool| {
        let start = Instant::now();
        let results = match pool {
            Pool::Fresh => run(side, games, due, &mut vec![0; POOL_WORDS]),
            Pool::Touched => run(side, games, due, touched),
        };
        let seconds = start.elapsed().as_secs_f64();
        if results == due.results {
            Ok(1e3 * seconds)
        } else {
            Err(format!("{:?}: the results differ", side))
        }
    };
    let mut all = |sides: &[Side], pool| by_turns(rounds + 1, sides, |side| one(side, pool));
    Ok(Times {
        fresh: both(&all(&[Side::Together, Side::Alone], Pool::Fresh)?[1..]),
        touched: both(&all(&[Side::Together, Side::Alone], Pool::Touched)?[1..]),
        again: median(&all(&[Side::Again], Pool::Touched)?[1..], 0),
    })
}

fn run(side: Side, games: &Games, due: &Passes, pool: &mut [u32]) -> Results {
    match side {
        Side::Together => together(games, pool),
        Side::Alone => alone(games, &due.grants, pool),
        Side::Again => again(games, pool).results,
    }
}

fn both(rounds: &[Vec<f64>]) -> Both {
    Both {
        together: median(rounds, 0),
        alone: median(rounds, 1),
        ratio: spread(rounds.iter().map(|round| round[1] / round[0]).collect()),
    }
}

fn median(rounds: &[Vec<f64>], side: usize) -> f64 {
    spread(rounds.iter().map(|round| round[side]).collect()).1
}
