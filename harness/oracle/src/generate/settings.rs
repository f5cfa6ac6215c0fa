//! Settings of a search: the ends of each range, one past them, and numbers between. The margin is drawn aside, so the
//! other settings don't depend on it.

use super::margins::stay;
use super::random::Random;
use calls::table::{LARGEST_BUDGET, LARGEST_INTERVAL, LARGEST_POOL};
use calls::Stay;

/// Budgets, shares and allowances that are refused: one too large, one that 32 bits would cut to 0, the largest of a
/// range that once was, one that 64 bits would sum to 0 with itself, and the largest number.
pub const TOO_LARGE: [u64; 5] = [LARGEST_BUDGET + 1, 1 << 32, 1_000_000_000_000, 1 << 63, u64::MAX];

#[derive(Clone, Copy)]
pub struct Settings {
    pub rule: u64,
    pub pool: u64,
    pub limit: u64,
    pub budget: u64,
    pub interval: u64,
    pub stay: Stay,
}

/// `small` bounds the work: the position is far from its end, so with a large pool the budget stays
/// below 10,000, but for a few of 100,000.
pub fn settings(random: &mut Random, small: bool) -> Settings {
    if random.once_in(6) {
        return deep(random);
    }
    let mut settings = Settings {
        rule: rule(random),
        pool: pool(random),
        limit: limit(random),
        budget: budget(random),
        interval: interval(random),
        stay: stay(&mut random.aside()),
    };
    if small && settings.pool > 3_276 && settings.budget <= LARGEST_BUDGET {
        settings.budget %= 10_000;
    }
    settings
}

/// Settings that are taken and let the search go on for a while.
fn deep(random: &mut Random) -> Settings {
    Settings {
        rule: random.below(3),
        pool: random.pick(&[4_096, 10_000, 65_536, LARGEST_POOL]),
        limit: random.pick(&[4_000, 20_000, u64::MAX, u64::MAX]),
        budget: if random.once_in(100) { 100_000 } else { random.below(5_000) },
        interval: random.pick(&[1, 7, 100, 1_000]),
        stay: stay(&mut random.aside()),
    }
}

/// A draw rule; now and then none of the three.
pub fn rule(random: &mut Random) -> u64 {
    if random.once_in(40) {
        random.pick(&[3, 255, 256, u64::MAX])
    } else {
        random.below(3)
    }
}

fn pool(random: &mut Random) -> u64 {
    match random.below(20) {
        0 => random.pick(&[0, LARGEST_POOL + 1, 2 * LARGEST_POOL]),
        1 => random.pick(&[1, 2, 3, LARGEST_POOL]),
        2..=4 => 1 + random.below(20),
        5..=7 => 1 + random.below(200),
        8..=12 => 1 + random.below(4_096),
        13..=17 => random.pick(&[82, 1_000, 3_276, 4_096]),
        _ => random.pick(&[10_000, 65_536]),
    }
}

/// The original keeps its limit in bytes, so the largest that it can hold is among these.
fn limit(random: &mut Random) -> u64 {
    let last_held = u64::MAX / crate::prove::pn::sizeof_node() as u64;
    match random.below(10) {
        0 => random.below(30),
        1 | 2 => random.below(1_000),
        3 => random.below(10_000),
        4 => random.pick(&[0, 1, 2, last_held, last_held + 1]),
        _ => u64::MAX,
    }
}

fn budget(random: &mut Random) -> u64 {
    match random.below(20) {
        0 => random.pick(&TOO_LARGE),
        1 => random.pick(&[0, 1, 2, LARGEST_BUDGET]),
        2..=4 => random.below(12),
        5..=8 => random.below(300),
        9..=12 => random.below(3_000),
        13 | 14 => random.below(20_000),
        _ => random.pick(&[5_000, LARGEST_BUDGET]),
    }
}

/// An interval; now and then one that is refused.
pub fn interval(random: &mut Random) -> u64 {
    match random.below(20) {
        0 => random.pick(&[0, LARGEST_INTERVAL + 1, u64::MAX]),
        1 => random.pick(&[1, 2, LARGEST_INTERVAL]),
        2..=12 => 1 + random.below(9),
        13..=16 => 1 + random.below(200),
        _ => 10_000,
    }
}
