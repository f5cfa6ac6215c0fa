//! The endings that are solved, and the settings.

use calls::record::LENGTH;
use calls::table::LARGEST_POOL;
use calls::Stay;
use oracle::generate::{reached, Random};
use oracle::load;

/// Words of the largest pool that the library takes; every search is lent this one.
pub const POOL_WORDS: usize = 5 * LARGEST_POOL as usize;
/// Whether the side to move can force a win.
pub const RULE: u64 = 1;
pub const LIMIT: u64 = u64::MAX;
pub const INTERVAL: u64 = 10_000;
pub const BUDGET: u64 = 2_000_000;

/// Off and four margins, each with a name.
pub const SETTINGS: [(&str, Stay); 5] = [
    ("off", Stay::Off),
    ("0", Stay::margin(0.0)),
    ("1/4", Stay::margin(0.25)),
    ("1/2", Stay::margin(0.5)),
    ("1", Stay::margin(1.0)),
];

/// Random play after 36 to 47 moves, by its seed. These are all seeds up to the last of them with which one setting at
/// least solves the ending within the budget, and none with fewer than 1,000 expansions.
pub const SEEDS: [u64; 48] = [
    2, 4, 5, 6, 7, 9, 13, 16, 17, 18, 19, 20, 21, 22, 23, 25, 26, 28, 29, 32, 34, 38, 39, 40, 41, 42, 43, 44, 45, 51,
    53, 55, 63, 65, 66, 67, 68, 69, 70, 71, 77, 78, 79, 80, 81, 82, 84, 85,
];

/// The record of an ending.
pub fn record(seed: u64) -> [u8; LENGTH] {
    load::record(&reached(&mut Random::new(seed), 36 + seed % 12))
}
