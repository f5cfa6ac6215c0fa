//! What the original's `all_moves` does on finished positions, where the oracle never asks it.

use calls::hex;
use oracle::load;
use std::panic::catch_unwind;

fn listed(record: &str) -> Vec<u8> {
    let bytes = hex::read(record).expect("hexadecimal");
    let game = load::game(bytes.as_slice().try_into().expect("21 bytes"));
    assert!(game.game_over());
    let moves = game.all_moves().map(|m| m.bits()).collect();
    moves
}

/// X has boards 0, 1 and 2 with nine cells, O eight cells: fewer cells end no game. Boards 5 to 8
/// are in play, and `all_moves` lists their 34 empty cells.
#[test]
fn it_lists_moves_of_a_won_game() {
    let moves = listed("FAA000A8002A001500054001400000000000000000");
    assert_eq!(moves.len(), 34);
    assert_eq!(moves.first(), Some(&0x52));
    assert_eq!(moves.last(), Some(&0x88));
}

/// Nine done boards, 15 cells of X's and 14 of O's: fewer cells do not end all boards. No board is
/// in play and the choice is free, and `all_moves` reads a tenth board.
#[test]
fn it_panics_with_no_board_in_play() {
    assert!(catch_unwind(|| listed("FAB400A80054001500054000A8002A000A80054000")).is_err());
}
