//! The games that are judged, eight at a time.

use calls::games::MOST_GAMES;
use calls::record::{Position, LENGTH};
use calls::table::LARGEST_POOL;
use calls::{Games, Stay};
use measure::positions::{moves, M1, M2, M4};
use oracle::generate::{reached, Random};
use oracle::load;

/// Words of a node.
const NODE_WORDS: usize = 5;
/// Words of the largest pool that the library takes, and of a game's part.
pub const POOL_WORDS: usize = NODE_WORDS * LARGEST_POOL as usize;
pub const PART_WORDS: usize = POOL_WORDS / MOST_GAMES;
/// The original's rule, its own interval, and no limit.
const RULE: u64 = 0;
const INTERVAL: u64 = 10_000;
const LIMIT: u64 = u64::MAX;
/// Moves of an ending of random play.
const PLIES: u64 = 48;

/// Where a game stands.
#[derive(Clone, Copy)]
enum Standing {
    /// After the first moves of a list, so many of them.
    Played(&'static str, usize),
    /// In an ending of random play with this seed.
    Ending(u64),
}

use Standing::{Ending, Played};

/// The empty board, and an ending that takes 76,981 expansions.
const EMPTY: Standing = Played("", 0);
const M4_ENDING: Standing = Played(M4, 44);

pub struct Kind {
    pub name: &'static str,
    pub what: &'static str,
    standings: [Standing; MOST_GAMES],
    /// The share of each game.
    pub share: u64,
    pub allowance: u64,
}

pub const KINDS: [Kind; 4] = [
    Kind {
        name: "shares",
        what: "stopped at their shares, nothing left",
        standings: before_middle_games(EMPTY, M4_ENDING),
        share: 25_000,
        allowance: 200_000,
    },
    Kind {
        name: "first",
        what: "small shares, nearly all for the first",
        standings: before_middle_games(EMPTY, M4_ENDING),
        share: 1_000,
        allowance: 207_000,
    },
    Kind {
        name: "half",
        what: "half of the allowance in shares",
        standings: before_middle_games(M4_ENDING, EMPTY),
        share: 20_000,
        allowance: 320_000,
    },
    Kind {
        name: "endings",
        what: "endings, most of them solved within their shares",
        standings: [M4_ENDING, Ending(1), Ending(5), Ending(6), Ending(8), Ending(14), Ending(15), Ending(33)],
        share: 75_000,
        allowance: 600_000,
    },
];

/// These two, and middle games.
const fn before_middle_games(first: Standing, second: Standing) -> [Standing; MOST_GAMES] {
    let middle = [Played(M1, 8), Played(M1, 16), Played(M1, 24), Played(M1, 32), Played(M2, 32), Played(M2, 40)];
    let [a, b, c, d, e, f] = middle;
    [first, second, a, b, c, d, e, f]
}

impl Kind {
    /// The call.
    pub fn games(&self) -> Games {
        Games {
            records: self.standings.iter().flat_map(Standing::record).collect(),
            rule: RULE,
            pool: LARGEST_POOL,
            limit: LIMIT,
            allowance: self.allowance,
            interval: INTERVAL,
            shares: [self.share; MOST_GAMES],
            stay: Stay::Off,
        }
    }
}

impl Standing {
    /// Its record, by the original's own moves.
    fn record(&self) -> [u8; LENGTH] {
        match self {
            Played(list, count) => {
                oracle::replay(&Position::start().write(), &moves(list)[..*count]).expect("the moves are legal")
            }
            Ending(seed) => load::record(&reached(&mut Random::new(*seed), PLIES)),
        }
    }
}
