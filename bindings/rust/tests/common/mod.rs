//! Records for the tests.
#![allow(dead_code)]

pub mod book;
/// The calls themselves, for rules that the wrapper has no name for.
#[path = "../../src/ffi.rs"]
pub mod ffi;
pub mod games;
pub mod players;

use ultimattt::{PlayersSettings, Pool, Record, Rule, Settings, Stay, EMPTY_GAME};

pub const RULES: [Rule; 3] = [Rule::DrawLostByMover, Rule::DrawFalse, Rule::DrawTrue];

pub const X: u8 = 1;
pub const O: u8 = 2;
pub const FREE_CHOICE: u8 = 15;

/// The bytes that hexadecimal digits stand for.
pub fn bytes(digits: &str) -> Vec<u8> {
    assert_eq!(digits.len() % 2, 0, "a byte has two digits");
    let byte = |i| u8::from_str_radix(&digits[i..i + 2], 16).expect("hexadecimal digits");
    (0..digits.len()).step_by(2).map(byte).collect()
}

/// The record that hexadecimal digits stand for.
pub fn record(digits: &str) -> Record {
    bytes(digits).try_into().expect("a record has 42 digits")
}

/// A record of X to move from its target and its marked cells: boards, cells of each, code.
pub fn x_to_move(target: u8, marks: &[(&[usize], &[usize], u8)]) -> Record {
    let mut record = [0; 21];
    record[0] = target << 3;
    for (boards, cells, code) in marks {
        for place in boards.iter().flat_map(|b| cells.iter().map(move |c| 9 * b + c)) {
            let bit = 5 + 2 * place;
            record[bit / 8] |= (code >> 1) << (7 - bit % 8);
            record[(bit + 1) / 8] |= (code & 1) << (7 - (bit + 1) % 8);
        }
    }
    record
}

/// E, the empty game.
pub const E: Record = EMPTY_GAME;

/// G, a game that X wins by boards 0, 3 and 6, in 21 moves.
pub const G: &str = "666008800663377007733116644662288644422334";

/// W: X to move wins at once on board 2.
pub fn w() -> Record {
    let two_boards: (&[usize], &[usize], u8) = (&[0, 1], &[0, 1, 2], X);
    x_to_move(2, &[two_boards, (&[3, 4], &[0, 1, 2], O), (&[2], &[0, 1], X), (&[2], &[6, 7], O)])
}

/// D, a drawn game, with the target under trial.
pub fn d(target: u8) -> Record {
    let of_x: (&[usize], &[usize], u8) = (&[0, 1, 5, 6, 7], &[0, 1, 2], X);
    x_to_move(target, &[of_x, (&[2, 3, 4, 8], &[0, 1, 2], O), (&[0], &[3, 4], O), (&[1], &[3], O)])
}

/// Records that checks 1 to 6 and 22 refuse, in their order, each with the check's number.
pub fn refused_records() -> [(Vec<u8>, u32); 7] {
    let of_both: (&[usize], &[usize], u8) = (&[0], &[3, 4, 5], O);
    let won: (&[usize], &[usize], u8) = (&[0, 1, 2], &[0, 1, 2], X);
    [
        (vec![], 1),
        (x_to_move(9, &[]).to_vec(), 2),
        (x_to_move(FREE_CHOICE, &[(&[0], &[0], X)]).to_vec(), 3),
        (x_to_move(FREE_CHOICE, &[(&[0], &[0, 1, 2], X), of_both]).to_vec(), 4),
        (x_to_move(FREE_CHOICE, &[won, (&[3, 4, 5], &[0, 1, 3], O)]).to_vec(), 5),
        (d(0).to_vec(), 6),
        (x_to_move(FREE_CHOICE, &[(&[0], &[0], X), (&[0], &[1], O)]).to_vec(), 22),
    ]
}

pub fn pool(nodes: usize) -> Pool {
    Pool::new(nodes).expect("a pool within the range")
}

/// S: O to move wins by either of two moves, which are nearly level all the time.
pub fn s() -> Record {
    record("A51042A884524D1422CB224CC4B42432CCD332A90C")
}

/// Staying and margin, as the calls themselves take them.
pub fn passed(stay: Stay) -> (bool, f64) {
    match stay {
        Stay::Off => (false, f64::NAN),
        Stay::Margin(margin) => (true, margin),
    }
}

/// The program judge's settings, but for the budget.
pub fn budget(budget: u64) -> Settings {
    Settings { budget, ..Settings::default() }
}

/// The same for two players: X's budget and O's.
pub fn budgets(x_budget: u64, o_budget: u64) -> PlayersSettings {
    PlayersSettings { x_budget, o_budget, ..PlayersSettings::default() }
}
