//! Simulated players: most often of endings, with few games and small budgets where much is left to be played, so that
//! a call ends soon; now and then with up to three settings that are refused.

use super::damaged::damaged;
use super::margins::{no_margin, stay};
use super::positions::{accepted, ending, late, reachable, reached};
use super::random::Random;
use super::settings::{self, TOO_LARGE};
use crate::load;
use calls::record::Position;
use calls::simulation::MOST_SIMULATED;
use calls::table::{open_cells, simulate_refusal, LARGEST_BUDGET, LARGEST_INTERVAL, LARGEST_POOL};
use calls::{Simulation, Stay};

/// About so many searches and expansions are the most of a call.
const MOST_WORK: u64 = 8_000;
/// About so many moves are searched at a turn, and no more turns are left than there are empty cells in boards in play.
const MOVES_OF_A_TURN: u64 = 6;
/// With fewer such cells now and then as many games are played as are drawn.
const FEW_CELLS: u64 = 9;

pub fn simulation(random: &mut Random) -> Simulation {
    let mut call = Simulation {
        record: record(random),
        seed: seed(random),
        games: games(random),
        pool: pool(random),
        limit: limit(random),
        interval: settings::interval(random),
        budgets: budgets(random),
        stay: stay(&mut random.aside()),
    };
    if call.is_finished() && random.once_in(3) {
        call.games = MOST_SIMULATED;
    }
    if random.once_in(5) {
        (0..1 + random.below(3)).for_each(|_| spoil(random, &mut call));
    }
    if !random.once_in(50) || cells_left(&call) > FEW_CELLS {
        keep_short(&mut call);
    }
    call
}

/// Of a call that is taken and has something to play: so few games, and then so small budgets, that it ends soon.
pub fn keep_short(call: &mut Simulation) {
    if simulate_refusal(call).is_some() || call.is_finished() {
        return;
    }
    let cells = cells_left(call);
    let most = (MOST_WORK / (MOVES_OF_A_TURN * cells)).max(1);
    call.games = 1 + (call.games - 1) % most;
    let budget = most / call.games;
    // An ending with so few cells is solved before that.
    if cells > u64::from(budget.ilog2()) {
        call.budgets.iter_mut().for_each(|own| *own %= budget + 1);
    }
}

/// Empty cells of boards in play, if the record is accepted; else none.
fn cells_left(call: &Simulation) -> u64 {
    match call.record.as_slice().try_into() {
        Ok(bytes) => open_cells(&Position::read(bytes)) as u64,
        Err(_) => 0,
    }
}

/// An ending or far on in play most often, now and then the empty game, one that is over or a damaged one.
fn record(random: &mut Random) -> Vec<u8> {
    match random.below(32) {
        0..=15 => ending(random).write().to_vec(),
        16..=20 => late(random).write().to_vec(),
        21 | 22 => load::record(&reached(random, 81)).to_vec(),
        23 | 24 => accepted(random).write().to_vec(),
        25 => reachable(random).write().to_vec(),
        26 => Position::start().write().to_vec(),
        _ => damaged(random),
    }
}

/// Any number; those that a draw makes pass 2^64 are as many as the others.
fn seed(random: &mut Random) -> u64 {
    match random.below(8) {
        0 => random.pick(&[0, 1, 2, 1 << 32, 1 << 63, u64::MAX - 1, u64::MAX]),
        1 => random.below(100),
        2 => u64::MAX - random.below(100),
        _ => random.word(),
    }
}

fn games(random: &mut Random) -> u64 {
    match random.below(16) {
        0..=3 => 1,
        4..=7 => 2,
        8..=12 => 1 + random.below(8),
        13 => 1 + random.below(100),
        14 => 1 + random.below(MOST_SIMULATED),
        _ => MOST_SIMULATED - random.below(2),
    }
}

fn pool(random: &mut Random) -> u64 {
    match random.below(40) {
        0 => random.pick(&[10_000, 65_536]),
        1 if random.once_in(4) => LARGEST_POOL,
        1..=4 => 1 + random.below(3),
        5..=12 => 1 + random.below(20),
        13..=20 => 1 + random.below(200),
        _ => random.pick(&[82, 1_000, 3_276, 4_096]),
    }
}

/// A limit that few, some or no searches come to.
fn limit(random: &mut Random) -> u64 {
    match random.below(10) {
        0 => random.below(3),
        1 | 2 => random.below(20),
        3 => random.below(100),
        _ => u64::MAX,
    }
}

/// The same for both in one call of six.
fn budgets(random: &mut Random) -> [u64; 2] {
    let both = [(); 2].map(|()| budget(random));
    if random.once_in(6) {
        [both[0]; 2]
    } else {
        both
    }
}

fn budget(random: &mut Random) -> u64 {
    match random.below(16) {
        0..=2 => 0,
        3..=6 => 1 + random.below(3),
        7..=10 => random.below(12),
        11..=13 => random.below(300),
        14 => LARGEST_BUDGET - random.below(2),
        _ => random.below(3_000),
    }
}

/// One setting that is refused.
fn spoil(random: &mut Random, call: &mut Simulation) {
    match random.below(15) {
        0..=5 => {
            call.games = random.pick(&[0, MOST_SIMULATED + 1, MOST_SIMULATED + 1, 1 << 32, (1 << 32) + 1, u64::MAX])
        }
        6 | 7 => call.budgets[0] = random.pick(&TOO_LARGE),
        8 | 9 => call.budgets[1] = random.pick(&TOO_LARGE),
        10 => call.interval = random.pick(&[0, LARGEST_INTERVAL + 1, u64::MAX]),
        11 | 12 => call.stay = Stay::Margin(no_margin(random)),
        13 => call.pool = random.pick(&[0, 0, LARGEST_POOL + 1]),
        _ => call.record = damaged(random),
    }
}
