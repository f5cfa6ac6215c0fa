//! Games that are judged together: none to ten of them, some with one record or with damaged ones, parts of the pool
//! that are too small and others, and shares that spend the allowance, leave some for a second pass, or are too much.

use super::damaged::{any_bytes, damaged_position};
use super::margins::stay;
use super::positions::{accepted, ending, late, reached};
use super::random::Random;
use super::settings::{self, TOO_LARGE};
use crate::games::lone;
use crate::load;
use calls::games::MOST_GAMES;
use calls::record::LENGTH;
use calls::table::{games_refusal, LARGEST_BUDGET, LARGEST_POOL};
use calls::Games;

/// Up to so many nodes of a part a search comes to an end soon, whatever it may spend.
const FEW_NODES: u64 = 200;
/// What a game takes is looked for up to so many expansions.
const MOST_TAKEN: u64 = 500;

pub fn games(random: &mut Random) -> Games {
    let count = match random.below(16) {
        0 => random.pick(&[0, 9, 10]),
        1 | 2 => 1,
        3..=7 => 2,
        8..=10 => 3,
        11 | 12 => MOST_GAMES,
        _ => 4 + random.index(4),
    };
    let records = records(random, count);
    let pool = pool(random, count.max(1) as u64);
    let allowance = allowance(random, pool / count.max(1) as u64);
    let shares = shares(random, count.min(MOST_GAMES), allowance);
    let (rule, limit) = (settings::rule(random), limit(random));
    let (interval, stay) = (settings::interval(random), stay(&mut random.aside()));
    let mut games = Games { records, rule, pool, limit, allowance, interval, shares, stay };
    if random.once_in(3) && games_refusal(&games).is_none() {
        near_what_is_taken(random, &mut games);
    }
    games
}

/// The records of so many games. In one call of six some are damaged, in one of twenty the length is another.
fn records(random: &mut Random, count: usize) -> Vec<u8> {
    let mut records: Vec<[u8; LENGTH]> = Vec::new();
    for _ in 0..count {
        let next = match records.len() {
            made @ 1.. if random.once_in(6) => records[random.index(made)],
            _ => record(random),
        };
        records.push(next);
    }
    if random.once_in(6) && count > 0 {
        for _ in 0..1 + random.below(3) {
            records[random.index(count)] = damaged(random);
        }
    }
    let mut bytes = records.concat();
    if random.once_in(20) {
        let length = LENGTH * random.index(count + 1);
        bytes.resize(length + random.pick(&[1, 2, 10, 19, 20]), 0);
    }
    bytes
}

/// An accepted record: an ending or far on in play most often, now and then of a game that is over.
fn record(random: &mut Random) -> [u8; LENGTH] {
    match random.below(16) {
        0..=7 => ending(random).write(),
        8..=12 => late(random).write(),
        13 => load::record(&reached(random, 81)),
        _ => accepted(random).write(),
    }
}

fn damaged(random: &mut Random) -> [u8; LENGTH] {
    if random.once_in(20) {
        any_bytes(random)
    } else {
        damaged_position(random).write()
    }
}

/// A pool of so many parts and some nodes that are over.
fn pool(random: &mut Random, games: u64) -> u64 {
    let over = random.below(games);
    match random.below(20) {
        0 => over,
        1 => games + over,
        2..=4 => games * (1 + random.below(20)) + over,
        5..=8 => games * (1 + random.below(FEW_NODES)) + over,
        9..=15 => random.pick(&[1_000, 3_276, 4_095, 4_096]),
        16..=18 => games * (1 + random.below(1_000)) + over,
        _ => random.pick(&[10_000, 65_536, 65_537, LARGEST_POOL, LARGEST_POOL + 1, LARGEST_POOL + 2]),
    }
}

/// Expansions for all games: as many as can be if the parts are small.
fn allowance(random: &mut Random, part: u64) -> u64 {
    match random.below(20) {
        0 => random.pick(&[0, 1, 2]),
        1 | 2 => random.below(30),
        3..=8 => random.below(300),
        9..=13 => random.below(1_500),
        14 if random.once_in(8) => random.below(40_000),
        14 => random.below(6_000),
        15 if random.once_in(3) => random.pick(&TOO_LARGE),
        _ if part <= FEW_NODES => random.pick(&[LARGEST_BUDGET, LARGEST_BUDGET - 1, 1 << 21, 100_000]),
        _ => 1_000,
    }
}

/// About as many expansions for all games as they take alone, and shares that are about as many as each of them takes.
fn near_what_is_taken(random: &mut Random, games: &mut Games) {
    let taken: Vec<u64> = (0..games.count()).map(|game| lone(games, game, MOST_TAKEN).expanded).collect();
    let all: u64 = taken.iter().sum();
    games.allowance = match random.below(4) {
        0 => all + random.below(2),
        1 => all.saturating_sub(1),
        _ => all - random.below(all.min(100) + 1),
    };
    let mut left = games.allowance;
    for (share, taken) in games.shares.iter_mut().zip(taken) {
        *share = random.pick(&[0, taken / 2, taken.saturating_sub(1), taken, taken + 1, 2 * taken]).min(left);
        left -= *share;
    }
}

/// The shares of the games there are, and past them any numbers.
fn shares(random: &mut Random, games: usize, allowance: u64) -> [u64; MOST_GAMES] {
    let mut shares = [(); MOST_GAMES].map(|()| past(random));
    let read = &mut shares[..games];
    share_out(random, read, allowance);
    if allowance == LARGEST_BUDGET && random.aside().once_in(3) {
        all_to_one(read);
    }
    if random.once_in(30) && games > 0 {
        read[random.index(games)] = random.pick(&TOO_LARGE);
    }
    shares
}

/// The largest share, for the first game.
fn all_to_one(shares: &mut [u64]) {
    shares.fill(0);
    if let Some(share) = shares.first_mut() {
        *share = LARGEST_BUDGET;
    }
}

/// A share that is not read.
fn past(random: &mut Random) -> u64 {
    match random.below(8) {
        0 => random.pick(&[LARGEST_BUDGET, LARGEST_BUDGET + 1]),
        1 => random.pick(&[1 << 63, u64::MAX]),
        2 => random.below(1_000),
        _ => random.below(10),
    }
}

/// Shares of none, of few, or of about as much for each game as there is. In one call of four they sum to the
/// allowance, and in one of twelve to one more.
fn share_out(random: &mut Random, shares: &mut [u64], allowance: u64) {
    let Some(even) = allowance.min(LARGEST_BUDGET).checked_div(shares.len() as u64) else { return };
    let most = match random.below(8) {
        0 => 0,
        1..=3 => even.min(20),
        4..=6 => even,
        _ => 2 * even,
    };
    let mut left = allowance;
    for share in shares.iter_mut() {
        *share = if random.once_in(8) { 0 } else { random.below(most + 1).min(left) };
        left -= *share;
    }
    let share = &mut shares[random.index(shares.len())];
    match random.below(12) {
        0 => *share = share.saturating_add(left).saturating_add(1),
        1..=3 => *share += left,
        _ => (),
    }
}

/// A limit that few, some or no searches come to.
fn limit(random: &mut Random) -> u64 {
    match random.below(10) {
        0 => random.below(3),
        1..=3 => random.below(60),
        4 | 5 => random.below(300),
        _ => u64::MAX,
    }
}
