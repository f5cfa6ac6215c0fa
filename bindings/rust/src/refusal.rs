//! Why a call is refused.

use crate::GAMES_MOST;
use std::error::Error;
use std::fmt;

/// The first check that a call failed, in the order in which it checks (include/ultimattt.h). Nothing was written.
///
/// Where a move is to blame, its index in the list of moves, from 0, stands with it; where games are judged and the
/// record of one is to blame, the game's.
#[derive(Clone, Copy, Debug, PartialEq, Eq, Hash)]
pub enum Refusal {
    /// 1: the record is not 21 bytes long; where games are judged, the records' length is no multiple of 21.
    RecordLength,
    /// 2: a cell of code 3, a target of 9 to 14, or a last bit of 1.
    RecordBits,
    /// 3: the counts of X's and O's cells don't go with the side to move.
    CellCounts,
    /// 4: a board has lines of both sides.
    BoardWonTwice,
    /// 5: both sides have a line of boards, or the side to move has one.
    GameWonWrongly,
    /// 6: the target is a won or drawn board.
    TargetDone,
    /// 7: the output is shorter than 21 bytes for a record, or than 81 for moves.
    OutputShort,
    /// 8: the pool has less than one node; where games are judged, less than one for each.
    PoolEmpty,
    /// 9: the pool has more than 16,777,216 nodes.
    PoolTooLarge,
    /// 10: the rule, the interval, a budget, a share or the allowance is out of its range.
    SettingRange,
    /// 11: a move's board or cell is not 0 to 8.
    OutOfBounds(usize),
    /// 12: a move after the game's end.
    GameOver(usize),
    /// 13: a move on a won or drawn board.
    WonBoard(usize),
    /// 14: a move on another board than the target.
    WrongBoard(usize),
    /// 15: a move on a cell that is taken.
    NotEmpty(usize),
    /// 16: over nine empty cells in boards in play, too many for the referee.
    TooManyEmpty,
    /// 17: the book's length is not a multiple of 22 bytes, or its count is above its entries.
    BookSize,
    /// 18: every entry of the book is used, and none holds the pair that is to be added.
    BookFull,
    /// 19: a trainer adds or publishes. It comes ahead of all others.
    TrainerWrites,
    /// 20: there is no game to judge, or there are over eight.
    GameCount,
    /// 20 as well: the shares of the games sum above the allowance.
    SharesOverAllowance,
    /// 21: the margin is not a whole multiple of 1/256 from 0 to 1.
    Margin,
    /// 22: the choice is free, though a cell is taken and no board is done. It comes after 6 and ahead of 7.
    ImpossibleChoice,
    /// 23: the number of games to simulate is not 1 to 1,000.
    GamesNumber,
    /// 2 to 6 and 22 where games are judged: the game's index, and what is wrong with its record, one of the five from
    /// [`Refusal::RecordBits`] to [`Refusal::TargetDone`] or [`Refusal::ImpossibleChoice`].
    InGame(usize, &'static Refusal),
}

/// What checks 2 to 6 find, in their order.
static OF_A_RECORD: [Refusal; 5] =
    [Refusal::RecordBits, Refusal::CellCounts, Refusal::BoardWonTwice, Refusal::GameWonWrongly, Refusal::TargetDone];

impl Refusal {
    /// The refusal that a code and an index stand for; code 0 is none.
    pub(crate) fn check(code: u32, index: u64) -> Result<(), Refusal> {
        let at = index as usize;
        Err(match code {
            0 => return Ok(()),
            1 => Refusal::RecordLength,
            2 => Refusal::RecordBits,
            3 => Refusal::CellCounts,
            4 => Refusal::BoardWonTwice,
            5 => Refusal::GameWonWrongly,
            6 => Refusal::TargetDone,
            7 => Refusal::OutputShort,
            8 => Refusal::PoolEmpty,
            9 => Refusal::PoolTooLarge,
            10 => Refusal::SettingRange,
            11 => Refusal::OutOfBounds(at),
            12 => Refusal::GameOver(at),
            13 => Refusal::WonBoard(at),
            14 => Refusal::WrongBoard(at),
            15 => Refusal::NotEmpty(at),
            16 => Refusal::TooManyEmpty,
            17 => Refusal::BookSize,
            18 => Refusal::BookFull,
            19 => Refusal::TrainerWrites,
            21 => Refusal::Margin,
            22 => Refusal::ImpossibleChoice,
            23 => Refusal::GamesNumber,
            _ => crate::answer::unnamed("code", code),
        })
    }

    /// The same of a call that judges so many games. Their number is checked ahead of their shares.
    pub(crate) fn check_games(code: u32, index: u64, games: usize) -> Result<(), Refusal> {
        Err(match code {
            2..=6 => Refusal::InGame(index as usize, &OF_A_RECORD[code as usize - 2]),
            22 => Refusal::InGame(index as usize, &Refusal::ImpossibleChoice),
            20 if !(1..=GAMES_MOST).contains(&games) => Refusal::GameCount,
            20 => Refusal::SharesOverAllowance,
            _ => return Refusal::check(code, index),
        })
    }

    /// The number in the table of refusals, 1 to 23.
    pub fn number(self) -> u32 {
        match self {
            Refusal::RecordLength => 1,
            Refusal::RecordBits => 2,
            Refusal::CellCounts => 3,
            Refusal::BoardWonTwice => 4,
            Refusal::GameWonWrongly => 5,
            Refusal::TargetDone => 6,
            Refusal::OutputShort => 7,
            Refusal::PoolEmpty => 8,
            Refusal::PoolTooLarge => 9,
            Refusal::SettingRange => 10,
            Refusal::OutOfBounds(_) => 11,
            Refusal::GameOver(_) => 12,
            Refusal::WonBoard(_) => 13,
            Refusal::WrongBoard(_) => 14,
            Refusal::NotEmpty(_) => 15,
            Refusal::TooManyEmpty => 16,
            Refusal::BookSize => 17,
            Refusal::BookFull => 18,
            Refusal::TrainerWrites => 19,
            Refusal::GameCount | Refusal::SharesOverAllowance => 20,
            Refusal::Margin => 21,
            Refusal::ImpossibleChoice => 22,
            Refusal::GamesNumber => 23,
            Refusal::InGame(_, fault) => fault.number(),
        }
    }

    /// The bad move's index, where a move is to blame; the game's, where games are judged and the record of one is.
    pub fn index(self) -> Option<usize> {
        match self {
            Refusal::OutOfBounds(at)
            | Refusal::GameOver(at)
            | Refusal::WonBoard(at)
            | Refusal::WrongBoard(at)
            | Refusal::NotEmpty(at)
            | Refusal::InGame(at, _) => Some(at),
            _ => None,
        }
    }

    /// What is wrong, but for the place of the move or the game.
    fn words(self) -> &'static str {
        match self {
            Refusal::RecordLength => "the record is not 21 bytes long (games: the records are not 21 bytes each)",
            Refusal::RecordBits => "the record has a cell of code 3, a target of 9 to 14, or a last bit of 1",
            Refusal::CellCounts => "the numbers of X's and O's cells don't go with the side to move",
            Refusal::BoardWonTwice => "a board has a line of X and a line of O",
            Refusal::GameWonWrongly => "both sides have a line of boards, or the side to move has one",
            Refusal::TargetDone => "the target is a board that is won or drawn",
            Refusal::OutputShort => "the output is too short: a record takes 21 bytes, moves take 81",
            Refusal::PoolEmpty => "the pool has no room for a node, which takes five words (games: for one each)",
            Refusal::PoolTooLarge => "the pool has more than 16,777,216 nodes",
            Refusal::SettingRange => {
                "the rule is over 2, the interval is not 1 to 1,000,000, or a budget, a share or the allowance is over \
                 3,000,000"
            }
            Refusal::OutOfBounds(_) => "its board or its cell is not 0 to 8",
            Refusal::GameOver(_) => "the game is over",
            Refusal::WonBoard(_) => "its board is won or drawn",
            Refusal::WrongBoard(_) => "its board is not the target",
            Refusal::NotEmpty(_) => "its cell is taken",
            Refusal::TooManyEmpty => "boards in play have over nine empty cells, too many for the referee",
            Refusal::BookSize => "the book's length is not a multiple of 22 bytes, or its count is above its entries",
            Refusal::BookFull => "the book is full and does not hold the pair",
            Refusal::TrainerWrites => "trainers may look up, but not add or publish",
            Refusal::GameCount => "there is no game to judge, or there are over eight",
            Refusal::SharesOverAllowance => "the shares of the games sum above the allowance",
            Refusal::Margin => "the margin is not a whole multiple of 1/256 from 0 to 1",
            Refusal::ImpossibleChoice => "free choice, though no board is done",
            Refusal::GamesNumber => "the number of games is not 1 to 1,000",
            Refusal::InGame(_, fault) => fault.words(),
        }
    }
}

impl fmt::Display for Refusal {
    fn fmt(&self, f: &mut fmt::Formatter) -> fmt::Result {
        if let Some(at) = self.index() {
            let what = if let Refusal::InGame(..) = self { "game" } else { "move" };
            write!(f, "the {what} at index {at}: ")?;
        }
        f.write_str(self.words())
    }
}

impl Error for Refusal {}
