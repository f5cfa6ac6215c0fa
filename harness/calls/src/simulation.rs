//! Simulated players (MANUAL, Simulated players) and their line:
//!
//! ```text
//! sim RECORD SEED GAMES POOL-NODES LIMIT INTERVAL X-BUDGET O-BUDGET [MARGIN]   X-WINS O-WINS DRAWS EXPANSIONS
//! ```
//!
//! All numbers are decimal, the seed too. `stay` has the form of a margin.

use crate::hex;
use crate::line::{bytes, number};
use crate::record::{Position, LENGTH};
use crate::stay::{read_last, write_last, Stay};
use crate::table::finished;
use std::fmt;

/// The most games of a call.
pub const MOST_SIMULATED: u64 = 1_000;
/// What comes after the name of the call.
pub const TAKES: &str = "RECORD SEED GAMES POOL-NODES LIMIT INTERVAL X-BUDGET O-BUDGET [MARGIN]";

#[derive(Clone, Debug, PartialEq, Eq)]
pub struct Simulation {
    pub record: Vec<u8>,
    pub seed: u64,
    pub games: u64,
    pub pool: u64,
    pub limit: u64,
    pub interval: u64,
    /// Of X, then of O: for every search that the side asks for.
    pub budgets: [u64; 2],
    pub stay: Stay,
}

impl Simulation {
    /// Every number of the call, to be changed.
    pub fn numbers(&mut self) -> [&mut u64; 7] {
        let Simulation { seed, games, pool, limit, interval, budgets: [x, o], .. } = self;
        [games, x, o, seed, pool, interval, limit]
    }

    /// The record has 21 bytes and its game is over, so that there is nothing to search.
    pub fn is_finished(&self) -> bool {
        <&[u8; LENGTH]>::try_from(self.record.as_slice()).is_ok_and(|bytes| finished(&Position::read(bytes)))
    }
}

/// How many games X won, O won and nobody won, and the expansions of all searches.
#[derive(Clone, Copy, Debug, Default, PartialEq, Eq)]
pub struct Report {
    pub x_wins: u64,
    pub o_wins: u64,
    pub draws: u64,
    pub expanded: u64,
}

impl fmt::Display for Report {
    fn fmt(&self, f: &mut fmt::Formatter) -> fmt::Result {
        write!(f, "{} {} {} {}", self.x_wins, self.o_wins, self.draws, self.expanded)
    }
}

impl fmt::Display for Simulation {
    fn fmt(&self, f: &mut fmt::Formatter) -> fmt::Result {
        let Simulation { record, seed, games, pool, limit, interval, budgets: [x, o], stay } = self;
        write!(f, "{} {} {} {} {} {} {} {}", hex::show(record), seed, games, pool, limit, interval, x, o)?;
        write_last(f, *stay)
    }
}

/// Reads what comes after the name of the call, or says what is wrong with it.
pub fn parse(words: &[&str]) -> Result<Simulation, String> {
    let [record, seed, games, pool, limit, interval, x, o, rest @ ..] = words else {
        return Err(format!("sim takes {}", TAKES));
    };
    Ok(Simulation {
        record: bytes("record", record)?,
        seed: number("seed", seed)?,
        games: number("games", games)?,
        pool: number("pool", pool)?,
        limit: number("limit", limit)?,
        interval: number("interval", interval)?,
        budgets: [number("X's budget", x)?, number("O's budget", o)?],
        stay: read_last(rest)?,
    })
}
