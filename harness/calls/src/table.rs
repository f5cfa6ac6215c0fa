//! The table of refusals (MANUAL, Turned back), checks 1 to 10 and 16 to 23, as plain code of our own. The original has
//! no such checks, so these are not its answers: they decide what is handed to it, and they are what a
//! refusal of the proved library is compared with. Refusals 11 to 15 are the original's own errors.
//!
//! Every function gives the first check that fails, in the order of the table (MANUAL, Calls), or none.

use crate::book::{Book, Who};
use crate::games::{Games, MOST_GAMES};
use crate::record::{Position, EMPTY, FREE_CHOICE, LENGTH, O, X};
use crate::simulation::{Simulation, MOST_SIMULATED};
use crate::stay::Stay;

const LINES: [[usize; 3]; 8] = [[0, 1, 2], [3, 4, 5], [6, 7, 8], [0, 3, 6], [1, 4, 7], [2, 5, 8], [0, 4, 8], [2, 4, 6]];

pub const LARGEST_POOL: u64 = 16_777_216;
pub const LARGEST_INTERVAL: u64 = 1_000_000;
pub const LARGEST_BUDGET: u64 = 3_000_000;
pub const LARGEST_RULE: u64 = 2;
/// The most empty cells of boards in play that the referee takes.
pub const MOST_OPEN_CELLS: usize = 9;
/// Room that the answers need: a record, and the moves of an empty game.
pub const RECORD_ROOM: usize = LENGTH;
pub const MOVES_ROOM: usize = 81;

/// A board, worked out from its cells.
#[derive(Clone, Copy, Debug, PartialEq, Eq)]
pub enum Board {
    InPlay,
    Drawn,
    Won(u8),
}

pub fn has_line(marks: &[bool; 9]) -> bool {
    LINES.iter().any(|line| line.iter().all(|i| marks[*i]))
}

fn cells_of(board: &[u8; 9], code: u8) -> [bool; 9] {
    board.map(|c| c == code)
}

pub fn board_state(board: &[u8; 9]) -> Board {
    if has_line(&cells_of(board, X)) {
        Board::Won(X)
    } else if has_line(&cells_of(board, O)) {
        Board::Won(O)
    } else if board.iter().all(|c| *c == X || *c == O) {
        Board::Drawn
    } else {
        Board::InPlay
    }
}

/// Whether `code` has a line of won boards.
pub fn has_line_of_boards(position: &Position, code: u8) -> bool {
    has_line(&position.cells.map(|board| board_state(&board) == Board::Won(code)))
}

/// The game is over: a line of boards, or no board in play.
pub fn finished(position: &Position) -> bool {
    has_line_of_boards(position, X)
        || has_line_of_boards(position, O)
        || position.cells.iter().all(|board| board_state(board) != Board::InPlay)
}

/// All checks of a record: 1 to 6, then 22.
pub fn record_refusal(record: &[u8]) -> Option<u32> {
    let chosen = <&[u8; LENGTH]>::try_from(record).is_ok_and(|bytes| impossible_choice(&Position::read(bytes)));
    refusal_to_6(record).or(first(&[(22, chosen)]))
}

/// Checks 1 to 6.
pub fn refusal_to_6(record: &[u8]) -> Option<u32> {
    let Ok(bytes) = <&[u8; LENGTH]>::try_from(record) else {
        return Some(1);
    };
    let position = Position::read(bytes);
    let checks = [
        (2, badly_coded(&position)),
        (3, badly_counted(&position)),
        (4, position.cells.iter().any(|b| has_line(&cells_of(b, X)) && has_line(&cells_of(b, O)))),
        (5, badly_won(&position)),
        (6, position.target < 9 && board_state(&position.cells[position.target as usize]) != Board::InPlay),
    ];
    first(&checks)
}

fn first(checks: &[(u32, bool)]) -> Option<u32> {
    checks.iter().find(|(_, fails)| *fails).map(|(number, _)| *number)
}

/// Check 22 fails: the choice is free, though a cell is taken and no board is done.
pub fn impossible_choice(position: &Position) -> bool {
    let played = position.count(EMPTY) < position.cells.as_flattened().len();
    let done = position.cells.iter().any(|board| board_state(board) != Board::InPlay);
    position.target == FREE_CHOICE && played && !done
}

fn badly_coded(position: &Position) -> bool {
    let target_stands = position.target <= 8 || position.target == FREE_CHOICE;
    position.cells.iter().flatten().any(|c| *c == 3) || !target_stands || position.last_bit == 1
}

fn badly_counted(position: &Position) -> bool {
    let (x, o) = (position.count(X), position.count(O));
    let x_to_move = position.side == 0;
    !(x == o && x_to_move || x == o + 1 && !x_to_move)
}

fn badly_won(position: &Position) -> bool {
    let (x, o) = (has_line_of_boards(position, X), has_line_of_boards(position, O));
    let mover = if position.side == 0 { x } else { o };
    x && o || mover
}

/// Checks 1 to 6, 22 and 7 of replay (`room` is `RECORD_ROOM`) and of legal moves (`MOVES_ROOM`).
pub fn output_refusal(record: &[u8], output: usize, room: usize) -> Option<u32> {
    record_refusal(record).or(room_refusal(output, room))
}

/// Check 7, the only one of the agreed opening (`room` is `RECORD_ROOM`).
pub fn room_refusal(output: usize, room: usize) -> Option<u32> {
    first(&[(7, output < room)])
}

/// Checks 1 to 6, 22, 8 to 10 and 21 of search.
pub fn search_refusal(record: &[u8], rule: u64, pool: u64, budget: u64, interval: u64, stay: Stay) -> Option<u32> {
    record_refusal(record).or(first(&searching(rule, pool, &[budget], interval, stay)))
}

/// Checks 8 to 10 and 21 of one pool and of budgets.
fn searching(rule: u64, pool: u64, budgets: &[u64], interval: u64, stay: Stay) -> [(u32, bool); 4] {
    let settings = out_of_range(rule, interval, budgets);
    [(8, pool < 1), (9, pool > LARGEST_POOL), (10, settings), (21, stay.is_refused())]
}

/// Check 10 fails.
fn out_of_range(rule: u64, interval: u64, budgets: &[u64]) -> bool {
    let large = |budget: &u64| *budget > LARGEST_BUDGET;
    rule > LARGEST_RULE || !(1..=LARGEST_INTERVAL).contains(&interval) || budgets.iter().any(large)
}

/// Search's checks without a rule.
pub fn full_refusal(record: &[u8], pool: u64, budget: u64, interval: u64, stay: Stay) -> Option<u32> {
    search_refusal(record, 0, pool, budget, interval, stay)
}

/// Empty cells of boards in play.
pub fn open_cells(position: &Position) -> usize {
    let open = position.cells.iter().filter(|board| board_state(board) == Board::InPlay);
    open.flatten().filter(|c| **c == EMPTY).count()
}

/// Checks 1 to 6, 22, 10 and 16 of the referee.
pub fn referee_refusal(record: &[u8], rule: u64) -> Option<u32> {
    let many = |bytes: &[u8; LENGTH]| open_cells(&Position::read(bytes)) > MOST_OPEN_CELLS;
    let large = <&[u8; LENGTH]>::try_from(record).is_ok_and(many);
    record_refusal(record).or(first(&[(10, rule > LARGEST_RULE), (16, large)]))
}

/// Checks 1 to 6, 22, 10 for the rule and 17 of a lookup, by whoever calls.
pub fn lookup_refusal(book: &Book, record: &[u8], rule: u64) -> Option<u32> {
    record_refusal(record).or(first(&[(10, rule > LARGEST_RULE), (17, book.is_broken())]))
}

/// Check 19, then a lookup's, of a publish.
pub fn publish_refusal(book: &Book, who: Who, record: &[u8], rule: u64) -> Option<u32> {
    caller_refusal(who).or(lookup_refusal(book, record, rule))
}

/// Check 19, then 1 to 6, 22, 8 to 10, 21, 17 and 18 of an add; `limits` are pool, budget and interval.
pub fn add_refusal(book: &Book, who: Who, record: &[u8], rule: u64, limits: [u64; 3], stay: Stay) -> Option<u32> {
    let full = book.count == book.entries() && book.held(Who::Arbiter, record, rule).is_none();
    let [pool, budget, interval] = limits;
    let settings = search_refusal(record, rule, pool, budget, interval, stay);
    caller_refusal(who).or(settings).or(first(&[(17, book.is_broken()), (18, full)]))
}

/// Check 19, ahead of all others.
fn caller_refusal(who: Who) -> Option<u32> {
    first(&[(19, who.is_trainer())])
}

/// The first check of games judged together that fails, and with 2 to 6 and 22 the game whose record it refuses, from 0
/// on: of the checks of all records the earliest counts, 22 as the last, then the lowest game.
pub fn games_refusal(call: &Games) -> Option<(u32, u64)> {
    let length = (1, !call.records.len().is_multiple_of(LENGTH));
    let number = (20, !(1..=MOST_GAMES).contains(&call.count()));
    let refused = |(game, record)| record_refusal(record).map(|check| (check, game));
    let records = (0..).zip(call.records.chunks_exact(LENGTH)).filter_map(refused).min();
    let at_first = |checks: &[(u32, bool)]| first(checks).map(|check| (check, 0));
    at_first(&[length, number]).or(records).or_else(|| at_first(&games_settings(call)))
}

/// Checks 8 of a part, 9 of the whole pool, 10, 21, and 20 for the sum of the shares. Shares past the games are not
/// read.
fn games_settings(call: &Games) -> [(u32, bool); 5] {
    let Games { rule, pool, allowance, interval, stay, .. } = *call;
    let shares = call.shares_read();
    let settings = out_of_range(rule, interval, &[allowance]) || out_of_range(rule, interval, shares);
    let sum: u128 = shares.iter().map(|share| u128::from(*share)).sum();
    let margin = (21, stay.is_refused());
    [(8, call.part() < 1), (9, pool > LARGEST_POOL), (10, settings), margin, (20, sum > u128::from(allowance))]
}

/// Checks 1 to 6, 22, 8 to 10 for both budgets and the interval, 21, and 23 of simulated players.
pub fn simulate_refusal(call: &Simulation) -> Option<u32> {
    let Simulation { record, games, pool, interval, budgets, stay, .. } = call;
    let number = (23, !(1..=MOST_SIMULATED).contains(games));
    record_refusal(record).or(first(&searching(0, *pool, budgets, *interval, *stay))).or(first(&[number]))
}
