//! Lists of moves for replay: legal ones, and ones with a wrong move of each kind.

use super::positions::legal_move;
use super::random::Random;
use crate::answer::{move_of, number};
use crate::game::Game;
use crate::load;
use calls::record::LENGTH;

/// Moves to be played from an accepted record.
pub fn moves(random: &mut Random, record: &[u8; LENGTH]) -> Vec<u8> {
    let game = load::game(record);
    match random.below(8) {
        0 => Vec::new(),
        1 => (0..random.below(6)).map(|_| random.byte()).collect(),
        2 | 3 => legal(random, game),
        _ => {
            let kind = 11 + random.below(5) as u32;
            spoiled(random, game, kind)
        }
    }
}

pub fn legal(random: &mut Random, mut game: Game) -> Vec<u8> {
    let mut moves = Vec::new();
    for _ in 0..random.below(82) {
        let Some(m) = legal_move(random, &game) else { break };
        moves.push(m.bits());
        game = game.make_move(m).expect("a listed move is legal");
    }
    moves
}

/// Legal moves, then one that is refused as `kind`, then bytes that nobody reads. Where the
/// game never comes to such a move the list is legal to its end.
fn spoiled(random: &mut Random, mut game: Game, kind: u32) -> Vec<u8> {
    let mut moves = Vec::new();
    let mut wait = if kind == 12 { 81 } else { random.below(30) };
    loop {
        let wrong = wrong_moves(&game, kind);
        let next = legal_move(random, &game);
        if !wrong.is_empty() && (wait == 0 || next.is_none()) {
            moves.push(random.pick(&wrong));
            let unread = random.pick(&[0, 0, 1, 2, 300]);
            moves.extend((0..unread).map(|_| random.byte()));
            return moves;
        }
        let Some(m) = next else { return moves };
        moves.push(m.bits());
        game = game.make_move(m).expect("a listed move is legal");
        wait = wait.saturating_sub(1);
    }
}

/// Every byte that the original refuses as `kind`.
fn wrong_moves(game: &Game, kind: u32) -> Vec<u8> {
    let refused = |byte: &u8| game.make_move(move_of(*byte)).is_err_and(|e| number(e) == kind);
    (0..=255).filter(refused).collect()
}
