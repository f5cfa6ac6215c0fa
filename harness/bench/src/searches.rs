//! The searches that are run on both sides.

use calls::record::{Position, LENGTH};
use calls::table::LARGEST_BUDGET;
use measure::positions::{moves, M1, M2, M4};

/// The largest pool that the library takes; every search is lent this one.
pub const POOL_NODES: usize = 16_777_216;
/// Words of a node.
const NODE_WORDS: usize = 5;
pub const POOL_WORDS: usize = NODE_WORDS * POOL_NODES;
/// The original's rule, its own interval, and no limit.
pub const RULE: u64 = 0;
pub const INTERVAL: u64 = 10_000;
pub const LIMIT: u64 = u64::MAX;
/// The largest budget: more expansions than any search of a solved ending takes.
const WHOLE: u64 = LARGEST_BUDGET;

pub struct Search {
    pub name: &'static str,
    pub what: &'static str,
    /// The moves that lead to it from the empty board.
    moves: &'static str,
    pub budget: u64,
    /// How many rounds are run for each one asked for: short searches vary more.
    pub times: usize,
}

pub const TIMED: [Search; 5] = [
    Search { name: "E", what: "empty board", moves: "", budget: 200_000, times: 3 },
    Search { name: "E-large", what: "empty board, the pool filled", moves: "", budget: 1_900_000, times: 1 },
    Search { name: "M1", what: "middle game, 32 moves", moves: M1, budget: 300_000, times: 3 },
    Search { name: "M4", what: "ending after 44 moves, solved", moves: M4, budget: WHOLE, times: 5 },
    Search { name: "M2", what: "ending after 40 moves, solved", moves: M2, budget: WHOLE, times: 1 },
];

/// Those whose instructions are counted.
pub const COUNTED: [Search; 2] = [
    Search { name: "E", what: "empty board", moves: "", budget: 50_000, times: 1 },
    Search { name: "M4", what: "ending after 44 moves, solved", moves: M4, budget: WHOLE, times: 1 },
];

impl Search {
    /// The record of the position, by the original's own moves.
    pub fn record(&self) -> [u8; LENGTH] {
        original::replay(&Position::start().write(), &moves(self.moves)).expect("the moves are legal")
    }
}
