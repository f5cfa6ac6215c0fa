//! Accepted positions: reached by play, and of kinds that no game reaches.

use super::random::Random;
use crate::game::{Game, Move};
use crate::load;
use calls::record::{Position, EMPTY, FREE_CHOICE, O, X};
use calls::table::{board_state, finished, record_refusal, Board};

/// A legal move of the original's, at random; none once the game is over.
pub fn legal_move(random: &mut Random, game: &Game) -> Option<Move> {
    if game.game_over() {
        return None;
    }
    let moves: Vec<Move> = game.all_moves().collect();
    Some(random.pick(&moves))
}

/// Random play from the empty game, up to `plies` moves or the game's end.
pub fn reached(random: &mut Random, plies: u64) -> Game {
    let mut game = Game::new();
    for _ in 0..plies {
        let Some(m) = legal_move(random, &game) else { break };
        game = game.make_move(m).expect("a listed move is legal");
    }
    game
}

/// A position of random play, of every depth.
pub fn reachable(random: &mut Random) -> Position {
    let plies = random.below(82);
    Position::read(&load::record(&reached(random, plies)))
}

/// A position of random play with the game far on, but seldom over.
pub fn late(random: &mut Random) -> Position {
    loop {
        let plies = 25 + random.below(50);
        let game = reached(random, plies);
        if !game.game_over() || random.once_in(20) {
            return Position::read(&load::record(&game));
        }
    }
}

/// An accepted position; most of them no game reaches.
pub fn accepted(random: &mut Random) -> Position {
    loop {
        let mut position = match random.below(5) {
            0 => reachable(random),
            1 => scattered(random),
            2 => {
                let done = random.below(10);
                composed(random, done)
            }
            3 => one_done(random),
            _ => ending(random),
        };
        if random.once_in(2) {
            position.target = any_target(random);
        }
        if is_accepted(&position) {
            return position;
        }
    }
}

pub fn is_accepted(position: &Position) -> bool {
    record_refusal(&position.write()).is_none()
}

/// Free choice or one of the boards, done or not.
pub fn any_target(random: &mut Random) -> u8 {
    random.pick(&[0, 1, 2, 3, 4, 5, 6, 7, 8, FREE_CHOICE, FREE_CHOICE, FREE_CHOICE])
}

/// X and O in turn on random empty cells, wherever they fall.
fn scattered(random: &mut Random) -> Position {
    let mut position = Position::start();
    for _ in 0..random.below(82) {
        let mover = if position.side == 0 { X } else { O };
        place(random, &mut position, mover);
        position.side = 1 - position.side;
    }
    position
}

/// Puts `code` on a random empty cell, if there is one.
pub fn place(random: &mut Random, position: &mut Position, code: u8) {
    change(random, position, EMPTY, code);
}

/// Turns a random cell of code `from` into `to`, if there is one.
pub fn change(random: &mut Random, position: &mut Position, from: u8, to: u8) {
    let start = random.index(81);
    if let Some(at) = (0..81).map(|i| (start + i) % 81).find(|at| position.cells[at / 9][at % 9] == from) {
        position.cells[at / 9][at % 9] = to;
    }
}

/// Boards put side by side, about `done` of nine of them done, with counts that fit.
fn composed(random: &mut Random, done: u64) -> Position {
    side_by_side(random, |random, _| if random.below(9) < done { done_board(random) } else { open_board(random) })
}

/// Free choice by one done board alone, which is drawn as often as won; about half of the others are empty.
pub fn one_done(random: &mut Random) -> Position {
    let (at, drawn) = (random.index(9), random.once_in(2));
    side_by_side(random, |random, board| match board {
        board if board == at && drawn => board_where(random, 9, |state| state == Board::Drawn),
        board if board == at => done_board_where(random, |state| matches!(state, Board::Won(_))),
        _ if random.once_in(2) => [EMPTY; 9],
        _ => open_board(random),
    })
}

/// Free choice of boards that are drawn by their number until the counts of cells fit.
fn side_by_side(random: &mut Random, board: impl Fn(&mut Random, usize) -> [u8; 9]) -> Position {
    loop {
        let mut position = Position::start();
        for (at, cells) in position.cells.iter_mut().enumerate() {
            *cells = board(random, at);
        }
        match position.count(X) as i64 - position.count(O) as i64 {
            0 => return position,
            1 => return Position { side: 1, ..position },
            _ => (),
        }
    }
}

/// A position with few empty cells left in boards in play and seldom finished, for searches that
/// come to an end.
pub fn ending(random: &mut Random) -> Position {
    loop {
        let position = composed(random, 6);
        if is_accepted(&position) && (!finished(&position) || random.once_in(20)) {
            return position;
        }
    }
}

/// A won or drawn board.
fn done_board(random: &mut Random) -> [u8; 9] {
    done_board_where(random, |state| state != Board::InPlay)
}

/// A board with three to nine cells taken whose state, that of a done one, passes `wanted`.
fn done_board_where(random: &mut Random, wanted: fn(Board) -> bool) -> [u8; 9] {
    let filled = 3 + random.index(7);
    board_where(random, filled, wanted)
}

/// A board in play with up to three empty cells, or an empty one now and then.
fn open_board(random: &mut Random) -> [u8; 9] {
    if random.once_in(20) {
        return [EMPTY; 9];
    }
    let filled = 6 + random.index(3);
    board_where(random, filled, |state| state == Board::InPlay)
}

/// A board with `filled` cells taken whose state passes `wanted` (three taken cells can be done).
fn board_where(random: &mut Random, filled: usize, wanted: fn(Board) -> bool) -> [u8; 9] {
    loop {
        let mut board = [EMPTY; 9];
        while board.iter().filter(|c| **c != EMPTY).count() < filled {
            board[random.index(9)] = random.pick(&[X, O]);
        }
        if wanted(board_state(&board)) {
            return board;
        }
    }
}
