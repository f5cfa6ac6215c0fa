//! What any answer must meet, whatever came in. Which refusal is due is asked of `calls::table`; that a result
//! is the right one is the comparison's to see.

use crate::run::Answered;
use crate::{books, games, players};
use calls::record::{EMPTY, FREE_CHOICE, LENGTH, O, X};
use calls::table::{self, Board, MOVES_ROOM, RECORD_ROOM};
use calls::{Book, Call, Position};

const INFINITY: u64 = 2_147_483_648;
const LARGEST_NUMBER: u64 = 4_294_967_295;
/// No position has more legal moves.
const MOST_MOVES: u64 = 81;

/// `book` is what a book's call was lent.
pub fn check(call: &Call, book: &Book, a: &Answered) -> Result<(), String> {
    let due = due(call, book);
    let (code, index) = due.unwrap_or((0, 0));
    let bad_move = due.is_none() && matches!(call, Call::Replay { .. }) && (11..=15).contains(&a.code);
    if a.code != code && !bad_move {
        return Err(format!("code {} where {} is due", a.code, code));
    }
    if a.index != index && !bad_move {
        return Err(format!("index {} with code {}, where {} is due", a.index, a.code, index));
    }
    if a.code != 0 && a.numbers.iter().any(|n| *n != 0) {
        return Err(format!("code {} with a result, {:?}", a.code, a.numbers));
    }
    if a.code == 0 {
        return result(call, book, a);
    }
    match call {
        Call::Replay { moves, .. } if bad_move => bad_index(moves, a),
        _ => Ok(()),
    }
}

/// How many bytes of the output tell: those that the answer has written, all of a book.
pub fn written(call: &Call, a: &Answered) -> usize {
    match call {
        Call::Moves { .. } if a.code == 0 => a.numbers[0] as usize,
        Call::Replay { .. } | Call::Sheets { .. } if a.code == 0 => LENGTH,
        Call::Book(_) => a.output.len(),
        _ => 0,
    }
}

/// The refusal of checks 1 to 10 and 16 to 23, if one is due, and its index.
fn due(call: &Call, book: &Book) -> Option<(u32, u64)> {
    let number = match call {
        Call::Moves { record, output } => table::output_refusal(record, *output, MOVES_ROOM),
        Call::Replay { record, output, .. } => table::output_refusal(record, *output, RECORD_ROOM),
        Call::Referee { record, rule } => table::referee_refusal(record, *rule),
        Call::Search { record, rule, pool, budget, interval, stay, .. } => {
            table::search_refusal(record, *rule, *pool, *budget, *interval, *stay)
        }
        Call::Full { record, pool, budget, interval, stay, .. } => {
            table::full_refusal(record, *pool, *budget, *interval, *stay)
        }
        Call::Sheets { output, .. } => table::room_refusal(*output, RECORD_ROOM),
        Call::Book(call) => books::due(call, book),
        Call::Games(games) => return table::games_refusal(games),
        Call::Simulate(call) => table::simulate_refusal(call),
    };
    number.map(|number| (number, 0))
}

/// The index names a move; a byte that is no move is the first one, and no later one is refused for it.
fn bad_index(moves: &[u8], a: &Answered) -> Result<(), String> {
    let no_move = |m: &u8| !is_move(m);
    match moves.get(a.index as usize) {
        None => Err(format!("index {} of {} moves", a.index, moves.len())),
        Some(m) if no_move(m) != (a.code == 11) => Err(format!("code {} for move {:02X}", a.code, m)),
        Some(_) if moves[..a.index as usize].iter().any(no_move) => Err(format!("index {} is too late", a.index)),
        Some(_) => Ok(()),
    }
}

fn result(call: &Call, book: &Book, a: &Answered) -> Result<(), String> {
    match call {
        Call::Moves { .. } => moves(a.numbers[0], &a.output),
        Call::Replay { record, moves, .. } => replayed(record, moves, &a.output),
        Call::Referee { .. } => must(matches!(a.numbers[..], [1 | 2]), "the value is 1 or 2"),
        Call::Search { pool, limit, budget, interval, .. } => search(&a.numbers, [*pool, *limit, *budget, *interval]),
        Call::Full { pool, limit, budget, interval, .. } => {
            let settings = [*pool, *limit, *budget, *interval];
            let (first, second) = a.numbers[1..].split_at(9);
            search(first, settings)?;
            search(second, settings)?;
            must(a.numbers[0] == full(first[0], second[0]), "the full verdict is that of the two verdicts")
        }
        Call::Sheets { first, second, .. } => opening(first, second, a.numbers[0], &a.output),
        Call::Book(call) => books::result(call, book, a),
        Call::Games(games) => games::result(games, a),
        Call::Simulate(call) => players::result(call, a),
    }
}

pub fn must(holds: bool, what: &str) -> Result<(), String> {
    holds.then_some(()).ok_or_else(|| format!("it must hold that {}", what))
}

/// It names a board and a cell.
fn is_move(m: &u8) -> bool {
    m / 16 <= 8 && m % 16 <= 8
}

/// Moves ascend, and each names a board and a cell.
fn moves(count: u64, output: &[u8]) -> Result<(), String> {
    must(count <= MOST_MOVES, "there are up to 81 moves")?;
    let moves = &output[..count as usize];
    must(moves.iter().all(is_move), "a move names a board and a cell")?;
    must(moves.windows(2).all(|pair| pair[0] < pair[1]), "moves ascend")
}

/// The record afterwards is accepted, and has one taken cell more for each move and the others as they were; no
/// moves leave it as it was.
fn replayed(record: &[u8], moves: &[u8], output: &[u8]) -> Result<(), String> {
    let after = &output[..LENGTH];
    must(table::record_refusal(after).is_none(), "the record afterwards passes checks 1 to 6 and 22")?;
    must(!moves.is_empty() || after == record, "no moves leave the record as it was")?;
    let (before, after) = (position(record), position(after));
    let mut cells = before.cells.iter().flatten().zip(after.cells.iter().flatten());
    must(cells.all(|(b, a)| *b == EMPTY || a == b), "a taken cell stays as it was")?;
    let taken = |position: &Position| 81 - position.count(EMPTY);
    must(moves.len() <= 81 && taken(&before) + moves.len() == taken(&after), "every move takes a cell")
}

fn position(record: &[u8]) -> Position {
    Position::read(record.try_into().expect("an accepted record has 21 bytes"))
}

/// The opening begins both sheets, the record is the empty game's with those moves' cells taken by X and O in
/// turn, and the next move, if both sheets have the same, can't be played.
fn opening(first: &[u8], second: &[u8], count: u64, output: &[u8]) -> Result<(), String> {
    let count = count as usize;
    must(count <= first.len().min(second.len()), "no sheet has fewer moves than the opening")?;
    let (part, rest) = first.split_at(count);
    must(second.starts_with(part), "the opening begins both sheets")?;
    must(part.iter().all(is_move), "a move names a board and a cell")?;
    replayed(&Position::start().write(), part, output)?;
    let after = position(&output[..LENGTH]);
    let in_turn = |(m, side): (&u8, &u8)| after.cells[(m / 16) as usize][(m % 16) as usize] == *side;
    must(part.iter().zip([X, O].iter().cycle()).all(in_turn), "X and O take the cells in turn")?;
    let next = rest.first().filter(|m| second.get(count) == Some(m));
    must(!next.is_some_and(|m| is_legal(&after, m)), "no longer part of both is legal")
}

fn is_legal(position: &Position, m: &u8) -> bool {
    let (board, cell) = (m / 16, m % 16);
    let open = |cells: &[u8; 9]| table::board_state(cells) == Board::InPlay && cells[cell as usize] == EMPTY;
    let allowed = position.target == FREE_CHOICE || position.target == board;
    is_move(m) && !table::finished(position) && allowed && open(&position.cells[board as usize])
}

/// The nine fields of an answered search; settings are pool, limit, budget and interval.
pub fn search(numbers: &[u64], [pool, limit, budget, interval]: [u64; 4]) -> Result<(), String> {
    let [verdict, proof, disproof, allocated, freed, proved, disproved, expanded, cause] = numbers else {
        return Err(format!("{} fields", numbers.len()));
    };
    let (proof, disproof, expanded, cause) = (*proof, *disproof, *expanded, *cause);
    must(proof.max(disproof) <= LARGEST_NUMBER, "proof and disproof have 32 bits")?;
    must(allocated > freed, "the root is alive")?;
    let live = allocated - freed;
    must(live <= pool, "no more nodes are alive than the pool has")?;
    must(expanded <= budget, "the budget holds")?;
    must(proved + disproved <= expanded, "only expanded nodes are counted as proved or disproved")?;
    match (*verdict, cause) {
        (1, 0) => must(proof == 0 && disproof >= INFINITY && live == 1, "True is proof 0, and the root alone lives"),
        (2, 0) => {
            must(disproof == 0 && proof >= INFINITY && live == 1, "False is disproof 0, and the root alone lives")
        }
        (0, 1..=3) => {
            let open = |n| (1..INFINITY).contains(&n);
            must(open(proof) && open(disproof), "Unknown is neither 0 nor infinite")?;
            must(cause != 1 || expanded == budget, "cause 1 is a spent budget")?;
            must(cause != 2 || pool - live < MOST_MOVES, "cause 2 is a pool nearly full")?;
            let due = expanded > 0 && expanded % interval == 0;
            must(cause != 3 || live > limit && due, "cause 3 is a limit passed at an interval")
        }
        _ => Err(format!("verdict {} with cause {}", verdict, cause)),
    }
}

/// The full verdict's number by the verdicts under rules 1 and 2.
fn full(first: u64, second: u64) -> u64 {
    const UNKNOWN: u64 = 0;
    const TRUE: u64 = 1;
    const FALSE: u64 = 2;
    match (first, second) {
        (TRUE, _) => 1,
        (_, FALSE) => 2,
        (FALSE, TRUE) => 3,
        (UNKNOWN, TRUE) => 4,
        (FALSE, _) => 5,
        _ => 0,
    }
}
