//! A safe wrapper of libultimattt, the proved adjudication library for Ultimate Tic Tac Toe.
//!
//! A record is 21 bytes: side to move, target board and 81 cells, as include/ultimattt.h lays them out. A move is one
//! byte, board in the high four bits and cell in the low four. Any bytes may come in; a call answers or says why not.
//!
//! ```
//! use ultimattt::{full_verdict, legal_moves, replay, FullVerdict, Pool, Settings, EMPTY_GAME};
//!
//! assert_eq!(legal_moves(&EMPTY_GAME)?.len(), 81);
//! let record = replay(&EMPTY_GAME, &[0x44, 0x40])?;
//! let answer = full_verdict(&record, &mut Pool::new(3_276)?, &Settings::default())?;
//! assert_eq!(answer.verdict, FullVerdict::Unknown);
//! assert_eq!(answer.first.cause.to_string(), "the pool was too small");
//! # Ok::<(), ultimattt::Refusal>(())
//! ```

mod answer;
mod book;
mod ffi;
mod games;
mod players;
mod pool;
mod refusal;
mod stay;

pub use answer::{Cause, FullResult, FullVerdict, SearchResult, Verdict};
pub use book::{add_to, lookup_in, publish_in, Book, Caller};
pub use games::{judge_games, GamesSettings};
pub use players::{simulate, PlayersSettings, Report};
pub use pool::Pool;
pub use refusal::Refusal;
pub use stay::Stay;

/// Bytes of a record.
pub const RECORD_BYTES: usize = 21;
/// Room that legal moves need, whatever the position.
pub const MOVES_BYTES: usize = 81;
/// Bytes of an entry of a book.
pub const ENTRY_BYTES: usize = 22;
/// Words of a node.
pub const NODE_WORDS: usize = 5;
/// The most nodes of a pool.
pub const POOL_MOST: usize = 16_777_216;
/// The most games that are judged together.
pub const GAMES_MOST: usize = 8;
/// The most games of a simulation.
pub const SIMULATED_MOST: u64 = 1_000;
/// The largest budget, share and allowance.
pub const BUDGET_MOST: u64 = 3_000_000;
/// The largest interval.
pub const INTERVAL_MOST: u64 = 1_000_000;
/// A proof or disproof number from here upward stands for infinity.
pub const INFINITY: u32 = 2_147_483_648;

/// A position, as bytes.
pub type Record = [u8; RECORD_BYTES];

/// The record of the empty game: X to move, free choice.
pub const EMPTY_GAME: Record = {
    let mut record = [0; RECORD_BYTES];
    record[0] = 0x78;
    record
};

/// What a drawn game counts as. Verdicts are for the side to move in the record.
#[derive(Clone, Copy, Debug, PartialEq, Eq, Hash)]
pub enum Rule {
    /// Rule 0, the original program's: a drawn position is lost by whoever is to move in it.
    DrawLostByMover,
    /// Rule 1: drawn is False, so True is "can force a win".
    DrawFalse,
    /// Rule 2: drawn is True, so True is "can force at least a draw".
    DrawTrue,
}

impl Rule {
    pub fn number(self) -> u64 {
        match self {
            Rule::DrawLostByMover => 0,
            Rule::DrawFalse => 1,
            Rule::DrawTrue => 2,
        }
    }
}

/// What bounds a search beside its pool, and how it goes. The default is the program judge's.
#[derive(Clone, Copy, Debug, PartialEq)]
pub struct Settings {
    /// The most live nodes, looked at on every interval-th expansion.
    pub limit: u64,
    /// The most expansions, 0 to [`BUDGET_MOST`].
    pub budget: u64,
    /// 1 to 1,000,000.
    pub interval: u64,
    /// Whether it stays on a line.
    pub stay: Stay,
}

impl Default for Settings {
    fn default() -> Settings {
        Settings { limit: u64::MAX, budget: 100_000, interval: 10_000, stay: Stay::Off }
    }
}

/// Plays the moves and gives the record afterwards.
pub fn replay(record: &[u8], moves: &[u8]) -> Result<Record, Refusal> {
    let mut output = [0; RECORD_BYTES];
    replay_into(record, moves, &mut output)?;
    Ok(output)
}

/// Plays the moves and writes the record afterwards to the first 21 bytes of the output; the others are left alone.
pub fn replay_into(record: &[u8], moves: &[u8], output: &mut [u8]) -> Result<(), Refusal> {
    // SAFETY: the three slices are valid for their lengths, and a &mut overlaps nothing.
    let answer = unsafe {
        ffi::uttt_replay(record.as_ptr(), record.len(), moves.as_ptr(), moves.len(), output.as_mut_ptr(), output.len())
    };
    Refusal::check(answer.code, answer.index)
}

/// The legal moves, by board, then cell; none if the game is over.
pub fn legal_moves(record: &[u8]) -> Result<Vec<u8>, Refusal> {
    let mut output = [0; MOVES_BYTES];
    let count = legal_moves_into(record, &mut output)?;
    Ok(output[..count].to_vec())
}

/// Writes the legal moves from the front of the output on and gives their count; the other bytes are left alone.
pub fn legal_moves_into(record: &[u8], output: &mut [u8]) -> Result<usize, Refusal> {
    // SAFETY: both slices are valid for their lengths, and a &mut overlaps nothing.
    let answer = unsafe { ffi::uttt_legal_moves(record.as_ptr(), record.len(), output.as_mut_ptr(), output.len()) };
    Refusal::check(answer.code, answer.index)?;
    Ok(answer.count as usize)
}

/// The value of a small ending for the side to move, by going through everything that can follow.
pub fn referee(record: &[u8], rule: Rule) -> Result<bool, Refusal> {
    // SAFETY: the slice is valid for its length.
    let answer = unsafe { ffi::uttt_referee(record.as_ptr(), record.len(), rule.number()) };
    Refusal::check(answer.code, answer.index)?;
    match answer.value {
        1 => Ok(true),
        2 => Ok(false),
        number => answer::unnamed("value", number),
    }
}

/// The agreed opening of two sheets of one game, and the record after it.
///
/// Sheets are lists of moves. The opening is the longest beginning that both have and that is legal, move after move,
/// from the empty game; it is that part of the first sheet itself. A difference, a bad move (a move after the game's end
/// is one) and the end of a sheet end it, so it may be empty; none of them is a refusal.
///
/// ```
/// use ultimattt::{agreed_opening, replay, EMPTY_GAME};
///
/// let (opening, record) = agreed_opening(&[0x44, 0x40, 0x04], &[0x44, 0x40, 0x05]);
/// assert_eq!(opening, [0x44, 0x40]);
/// assert_eq!(replay(&EMPTY_GAME, opening), Ok(record));
/// ```
pub fn agreed_opening<'a>(first: &'a [u8], second: &[u8]) -> (&'a [u8], Record) {
    let mut output = [0; RECORD_BYTES];
    let opening = agreed_opening_into(first, second, &mut output).expect("an output of 21 bytes is not refused");
    (opening, output)
}

/// Gives the agreed opening and writes the record after it to the first 21 bytes of the output; the others are left
/// alone. A shorter output is refused with [`Refusal::OutputShort`], and nothing else is.
pub fn agreed_opening_into<'a>(first: &'a [u8], second: &[u8], output: &mut [u8]) -> Result<&'a [u8], Refusal> {
    // No answer's code: the call writes over it, with a refusal too.
    let mut number = u32::MAX;
    // SAFETY: the three slices are valid for their lengths, and a &mut, the number's too, overlaps nothing.
    let length = unsafe {
        ffi::uttt_agreed_opening(
            first.as_ptr(),
            first.len(),
            second.as_ptr(),
            second.len(),
            output.as_mut_ptr(),
            output.len(),
            &mut number,
        )
    };
    Refusal::check(number, 0)?;
    Ok(&first[..length as usize])
}

/// Searches the position under a rule.
pub fn search(record: &[u8], pool: &mut Pool, rule: Rule, s: &Settings) -> Result<SearchResult, Refusal> {
    let (words, (staying, margin)) = (pool.words_mut(), s.stay.passed());
    // SAFETY: both slices are valid for their lengths, and a &mut overlaps nothing.
    let answer = unsafe {
        ffi::uttt_search(
            record.as_ptr(),
            record.len(),
            words.as_mut_ptr(),
            words.len(),
            rule.number(),
            s.limit,
            s.budget,
            s.interval,
            staying,
            margin,
        )
    };
    Refusal::check(answer.code, answer.index)?;
    Ok(answer.result.into())
}

/// Searches under rule 1, then under rule 2, each with the whole pool and the whole budget.
pub fn full_verdict(record: &[u8], pool: &mut Pool, s: &Settings) -> Result<FullResult, Refusal> {
    let (words, (staying, margin)) = (pool.words_mut(), s.stay.passed());
    // SAFETY: both slices are valid for their lengths, and a &mut overlaps nothing.
    let answer = unsafe {
        ffi::uttt_full_verdict(
            record.as_ptr(),
            record.len(),
            words.as_mut_ptr(),
            words.len(),
            s.limit,
            s.budget,
            s.interval,
            staying,
            margin,
        )
    };
    Refusal::check(answer.code, answer.index)?;
    Ok(FullResult {
        verdict: FullVerdict::named(answer.verdict),
        first: answer.first.into(),
        second: answer.second.into(),
    })
}
