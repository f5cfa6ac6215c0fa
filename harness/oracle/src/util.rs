//! Stands in for the original's util.rs, which needs crates that are not at hand. The search names
//! it in its progress line alone, and that line is never printed here.

pub fn read_rss() -> u64 {
    0
}
