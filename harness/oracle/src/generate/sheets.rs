//! Two sheets of one game: lists of moves from the empty game that begin alike, and then end an opening
//! in each way that there is.

use super::moves::{legal, moves};
use super::random::Random;
use crate::answer::opening;
use crate::game::Game;
use crate::load;

/// Two lists: the same three times in eight, unrelated ones once, else parted within what can be played.
pub fn sheets(random: &mut Random) -> (Vec<u8>, Vec<u8>) {
    let start = load::record(&Game::new());
    let one = moves(random, &start);
    let other = match random.below(8) {
        0..=2 => one.clone(),
        3 => moves(random, &start),
        _ => parted(random, &one),
    };
    if random.once_in(2) {
        (one, other)
    } else {
        (other, one)
    }
}

/// The list up to a place at or before its first error, then nothing, another move and the same
/// moves after it, bytes at random, or legal moves.
fn parted(random: &mut Random, list: &[u8]) -> Vec<u8> {
    let (played, _) = opening(list, list);
    let (shared, rest) = list.split_at(random.index(played + 1));
    let after = match random.below(4) {
        0 => Vec::new(),
        1 => changed(random, rest),
        2 => (0..1 + random.below(6)).map(|_| random.byte()).collect(),
        _ => legal(random, opening(shared, shared).1),
    };
    [shared, &after].concat()
}

/// The moves with another byte in place of the first.
fn changed(random: &mut Random, moves: &[u8]) -> Vec<u8> {
    let mut changed = moves.to_vec();
    if let Some(first) = changed.first_mut() {
        *first ^= 1 + random.below(255) as u8;
    }
    changed
}
