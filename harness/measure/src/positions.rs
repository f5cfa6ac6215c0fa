//! Positions that benchmarks have in common, as the moves that lead to them from the empty board.

pub const M1: &str = "33 35 53 32 26 60 00 08 85 51 12 23 30 04 40 06 65 56 62 28 83 37 70 02 21 15 52 24 48 86 68 82";
pub const M2: &str = "17 71 16 68 80 07 70 04 43 33 34 44 40 03 37 76 64 48 88 84 45 55 56 62 24 46 65 52 25 57 73 32 \
                      28 85 50 00 08 82 23 30";
pub const M4: &str = "17 71 16 68 80 07 70 04 43 33 34 44 40 03 37 76 64 48 88 84 45 55 56 62 24 46 65 52 25 57 73 32 \
                      28 85 50 00 08 82 23 30 06 60 01 10";

/// The moves of such a list.
pub fn moves(list: &str) -> Vec<u8> {
    list.split_whitespace().map(|m| u8::from_str_radix(m, 16).expect("a move is two digits")).collect()
}
