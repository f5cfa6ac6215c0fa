//! Records to positions of the original and back. Any accepted record loads, also one that no game
//! reaches: board states are worked out from the cells, as MANUAL, Record says, and the game's state by
//! the original's own `recalc_winner`.

use crate::game::{CellState, Game, GameState, LocalBoard, Player, Unpacked};
use calls::record::{Position, FREE_CHOICE, LENGTH, O, X};
use calls::table::{board_state, Board};

fn player(code: u8) -> Player {
    if code == X {
        Player::X
    } else {
        Player::O
    }
}

fn cell(code: u8) -> CellState {
    match code {
        X | O => CellState::Played(player(code)),
        _ => CellState::Empty,
    }
}

fn state(cells: &[u8; 9]) -> GameState {
    match board_state(cells) {
        Board::InPlay => GameState::InPlay,
        Board::Drawn => GameState::Drawn,
        Board::Won(code) => GameState::Won(player(code)),
    }
}

/// The position of an accepted record.
pub fn game(record: &[u8; LENGTH]) -> Game {
    let position = Position::read(record);
    let mut game = Game::pack(&Unpacked {
        next_player: if position.side == 0 { Player::X } else { Player::O },
        next_board: if position.target == FREE_CHOICE { None } else { Some(position.target) },
        local_boards: position.cells.map(|board| LocalBoard(board.map(cell))),
        global_states: std::array::from_fn(|board| state(&position.cells[board])),
        game_state: GameState::InPlay,
    });
    game.recalc_winner();
    game
}

/// The record of a position.
pub fn record(game: &Game) -> [u8; LENGTH] {
    let code = |c| match c {
        CellState::Empty => 0,
        CellState::Played(Player::X) => X,
        CellState::Played(Player::O) => O,
    };
    let position = Position {
        side: game.player().as_bit() as u8,
        target: game.board_to_play().map_or(FREE_CHOICE, |b| b as u8),
        cells: std::array::from_fn(|b| std::array::from_fn(|c| code(game.at(b, c)))),
        last_bit: 0,
    };
    position.write()
}
