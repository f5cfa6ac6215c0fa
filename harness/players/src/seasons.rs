//! The games that are played, a thousand at a time: where they begin, and both budgets.

use calls::record::Position;
use calls::simulation::MOST_SIMULATED;
use calls::{Simulation, Stay};
use measure::positions::{moves, M1};

/// Nodes of the pool: enough for every search with budgets as small as these.
const POOL: u64 = 16_384;
/// Words of that pool.
pub const POOL_WORDS: usize = 5 * POOL as usize;
const SEED: u64 = 1;
const LIMIT: u64 = u64::MAX;
const INTERVAL: u64 = 10_000;

/// Where games begin: a name, and how many moves of M1 are played.
pub const STARTS: [(&str, usize); 2] = [("E", 0), ("M1-24", 24)];
/// Of X, then of O.
pub const BUDGETS: [[u64; 2]; 4] = [[0, 0], [1, 1], [10, 10], [50, 10]];

/// A thousand games from the first moves of M1, by the original's own moves.
pub fn season(played: usize, budgets: [u64; 2]) -> Simulation {
    let record = oracle::replay(&Position::start().write(), &moves(M1)[..played]).expect("the moves are legal");
    let (limit, interval, stay) = (LIMIT, INTERVAL, Stay::Off);
    let (record, games) = (record.to_vec(), MOST_SIMULATED);
    Simulation { record, seed: SEED, games, pool: POOL, limit, interval, budgets, stay }
}
