//! Up to eight games under one allowance (MANUAL, Games with one allowance) and their line:
//!
//! ```text
//! eight RECORDS RULE POOL-NODES LIMIT ALLOWANCE INTERVAL S1,..,S8 [MARGIN]   nine fields a game, with ` | ` between
//! ```
//!
//! RECORDS is the hexadecimal of all records, one after the other, `-` for none. There are eight shares whatever the
//! number of games, with commas and no spaces between. `stay` has the form of a margin.

use crate::hex;
use crate::line::{bytes, number, Fields};
use crate::record::LENGTH;
use crate::stay::{read_last, write_last, Stay};
use std::fmt;

/// The most games of a call; it has as many shares.
pub const MOST_GAMES: usize = 8;
/// What comes after the name of the call.
pub const TAKES: &str = "RECORDS RULE POOL-NODES LIMIT ALLOWANCE INTERVAL S1,S2,S3,S4,S5,S6,S7,S8 [MARGIN]";

#[derive(Clone, Debug, PartialEq, Eq)]
pub struct Games {
    /// Every record, one after the other.
    pub records: Vec<u8>,
    pub rule: u64,
    pub pool: u64,
    pub limit: u64,
    pub allowance: u64,
    pub interval: u64,
    pub shares: [u64; MOST_GAMES],
    pub stay: Stay,
}

impl Games {
    /// How many whole records there are.
    pub fn count(&self) -> usize {
        self.records.len() / LENGTH
    }

    /// The shares of the games there are.
    pub fn shares_read(&self) -> &[u64] {
        &self.shares[..self.count().min(MOST_GAMES)]
    }

    /// Every number of the call, to be changed.
    pub fn numbers(&mut self) -> [&mut u64; 5 + MOST_GAMES] {
        let Games { rule, pool, limit, allowance, interval, shares: [a, b, c, d, e, f, g, h], .. } = self;
        [allowance, pool, interval, limit, rule, a, b, c, d, e, f, g, h]
    }

    /// The nodes of a game's part of the pool, none without games.
    pub fn part(&self) -> u64 {
        self.pool.checked_div(self.count() as u64).unwrap_or(0)
    }
}

impl fmt::Display for Games {
    fn fmt(&self, f: &mut fmt::Formatter) -> fmt::Result {
        let Games { records, rule, pool, limit, allowance, interval, shares, stay } = self;
        write!(f, "{} {} {} {} {} {} ", hex::show(records), rule, pool, limit, allowance, interval)?;
        write!(f, "{}", shares.map(|share| share.to_string()).join(","))?;
        write_last(f, *stay)
    }
}

/// The results, in the games' order.
pub(crate) fn show_results(f: &mut fmt::Formatter, results: &[Fields]) -> fmt::Result {
    let results: Vec<String> = results.iter().map(Fields::to_string).collect();
    write!(f, "{}", results.join(" | "))
}

/// Reads what comes after the name of the call, or says what is wrong with it.
pub fn parse(words: &[&str]) -> Result<Games, String> {
    let [records, rule, pool, limit, allowance, interval, shares, rest @ ..] = words else {
        return Err(format!("eight takes {}", TAKES));
    };
    Ok(Games {
        records: bytes("records", records)?,
        rule: number("rule", rule)?,
        pool: number("pool", pool)?,
        limit: number("limit", limit)?,
        allowance: number("allowance", allowance)?,
        interval: number("interval", interval)?,
        shares: read_shares(shares)?,
        stay: read_last(rest)?,
    })
}

fn read_shares(text: &str) -> Result<[u64; MOST_GAMES], String> {
    let shares: Vec<u64> = text.split(',').map(|share| number("share", share)).collect::<Result<_, String>>()?;
    let count = shares.len();
    shares.try_into().map_err(|_| format!("there are {} shares, not {}", MOST_GAMES, count))
}
