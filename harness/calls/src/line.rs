//! A call and its answer, each as a line of text:
//!
//! ```text
//! moves RECORD [OUTPUT-LENGTH]                                   COUNT MOVES
//! replay RECORD MOVES [OUTPUT-LENGTH]                            RECORD
//! search RECORD RULE POOL-NODES LIMIT BUDGET INTERVAL [MARGIN]   the nine fields
//! full RECORD POOL-NODES LIMIT BUDGET INTERVAL [MARGIN]          VERDICT | nine fields | nine fields
//! referee RECORD RULE                                            True or False
//! sheets FIRST SECOND [OUTPUT-LENGTH]                            COUNT RECORD
//! book ...                                                       as `book` has them
//! eight ...                                                      as `games` has it
//! sim ...                                                        as `simulation` has it
//!                                                                refused NUMBER INDEX
//! ```
//!
//! Records, moves and sheets are hexadecimal, `-` for none. The output length is that of the lent buffer. `stay` has
//! the form of a margin.

use crate::book::{self, Book, BookCall};
use crate::games::{self, Games};
use crate::hex;
use crate::simulation::{self, Report, Simulation};
use crate::stay::{read_last, write_last, Stay};
use crate::table::{MOVES_ROOM, RECORD_ROOM};
use std::fmt;

/// A buffer that a line asks for is lent up to this length.
pub const LONGEST_OUTPUT: usize = 1_000_000;

#[derive(Clone, Debug, PartialEq, Eq)]
pub enum Call {
    Moves { record: Vec<u8>, output: usize },
    Replay { record: Vec<u8>, moves: Vec<u8>, output: usize },
    Search { record: Vec<u8>, rule: u64, pool: u64, limit: u64, budget: u64, interval: u64, stay: Stay },
    Full { record: Vec<u8>, pool: u64, limit: u64, budget: u64, interval: u64, stay: Stay },
    Referee { record: Vec<u8>, rule: u64 },
    Sheets { first: Vec<u8>, second: Vec<u8>, output: usize },
    Book(BookCall),
    Games(Games),
    Simulate(Simulation),
}

/// Which call it is.
#[derive(Clone, Copy, Debug, PartialEq, Eq)]
pub enum Kind {
    Moves,
    Replay,
    Search,
    Full,
    Referee,
    Sheets,
    Book,
    Games,
    Simulate,
}

impl Kind {
    pub const ALL: [Kind; 9] = [
        Kind::Moves,
        Kind::Replay,
        Kind::Search,
        Kind::Full,
        Kind::Referee,
        Kind::Sheets,
        Kind::Book,
        Kind::Games,
        Kind::Simulate,
    ];

    /// The word that a call's line starts with.
    pub fn name(self) -> &'static str {
        match self {
            Kind::Moves => "moves",
            Kind::Replay => "replay",
            Kind::Search => "search",
            Kind::Full => "full",
            Kind::Referee => "referee",
            Kind::Sheets => "sheets",
            Kind::Book => "book",
            Kind::Games => "eight",
            Kind::Simulate => "sim",
        }
    }

    /// The call that a line starting with this word is.
    pub fn named(word: &str) -> Option<Kind> {
        Kind::ALL.into_iter().find(|kind| kind.name() == word)
    }

    /// What comes after the name.
    fn takes(self) -> &'static str {
        match self {
            Kind::Moves => "RECORD [OUTPUT-LENGTH]",
            Kind::Replay => "RECORD MOVES [OUTPUT-LENGTH]",
            Kind::Search => "RECORD RULE POOL-NODES LIMIT BUDGET INTERVAL [MARGIN]",
            Kind::Full => "RECORD POOL-NODES LIMIT BUDGET INTERVAL [MARGIN]",
            Kind::Referee => "RECORD RULE",
            Kind::Sheets => "FIRST SECOND [OUTPUT-LENGTH]",
            Kind::Book => book::TAKES,
            Kind::Games => games::TAKES,
            Kind::Simulate => simulation::TAKES,
        }
    }
}

impl Call {
    pub fn kind(&self) -> Kind {
        match self {
            Call::Moves { .. } => Kind::Moves,
            Call::Replay { .. } => Kind::Replay,
            Call::Search { .. } => Kind::Search,
            Call::Full { .. } => Kind::Full,
            Call::Referee { .. } => Kind::Referee,
            Call::Sheets { .. } => Kind::Sheets,
            Call::Book(_) => Kind::Book,
            Call::Games(_) => Kind::Games,
            Call::Simulate(_) => Kind::Simulate,
        }
    }

    /// The setting of a call that searches.
    pub fn stay(&self) -> Option<Stay> {
        match self {
            Call::Search { stay, .. } | Call::Full { stay, .. } => Some(*stay),
            Call::Book(BookCall::Add { stay, .. }) | Call::Games(Games { stay, .. }) => Some(*stay),
            Call::Simulate(Simulation { stay, .. }) => Some(*stay),
            _ => None,
        }
    }

    /// The same, to be changed.
    pub fn stay_mut(&mut self) -> Option<&mut Stay> {
        match self {
            Call::Search { stay, .. } | Call::Full { stay, .. } => Some(stay),
            Call::Book(BookCall::Add { stay, .. }) | Call::Games(Games { stay, .. }) => Some(stay),
            Call::Simulate(Simulation { stay, .. }) => Some(stay),
            _ => None,
        }
    }
}

/// The result of a search, in the order in which it is printed (MANUAL, Printed line).
#[derive(Clone, Copy, Debug, PartialEq, Eq)]
pub struct Fields {
    pub verdict: Verdict,
    pub proof: u64,
    pub disproof: u64,
    pub allocated: u64,
    pub freed: u64,
    pub proved: u64,
    pub disproved: u64,
    pub expanded: u64,
    pub cause: u64,
}

#[derive(Clone, Copy, Debug, PartialEq, Eq)]
pub enum Verdict {
    Unknown = 0,
    True = 1,
    False = 2,
}

/// What the searches under rules 1 and 2 tell together.
#[derive(Clone, Copy, Debug, PartialEq, Eq)]
pub enum FullVerdict {
    Unknown,
    Win,
    Loss,
    Draw,
    AtLeastDraw,
    AtMostDraw,
}

impl FullVerdict {
    pub fn name(self) -> &'static str {
        match self {
            FullVerdict::Unknown => "unknown",
            FullVerdict::Win => "win",
            FullVerdict::Loss => "loss",
            FullVerdict::Draw => "draw",
            FullVerdict::AtLeastDraw => "at-least-draw",
            FullVerdict::AtMostDraw => "at-most-draw",
        }
    }
}

#[derive(Clone, Debug, PartialEq, Eq)]
pub enum Answer {
    Moves(Vec<u8>),
    Record(Vec<u8>),
    Search(Fields),
    /// The results under rule 1 and rule 2 follow the verdict.
    Full(FullVerdict, Fields, Fields),
    Value(bool),
    /// How many moves the agreed opening has, and the record after it.
    Opening {
        count: u64,
        record: Vec<u8>,
    },
    /// A book was set.
    Ok,
    Book(Book),
    /// The verdict of an add, and the count after it.
    Added {
        verdict: Verdict,
        count: u64,
    },
    /// The verdict that a lookup found, if there is one for its caller.
    Found(Option<Verdict>),
    /// Whether the pair of a publish is held, and so published.
    Published(bool),
    /// The results of games that were judged together.
    Games(Vec<Fields>),
    /// The report of simulated players.
    Simulated(Report),
    Refused {
        number: u32,
        index: u64,
    },
}

impl Answer {
    /// A refusal that names no move and no game.
    pub fn refused(number: u32) -> Answer {
        Answer::Refused { number, index: 0 }
    }
}

impl fmt::Display for Fields {
    fn fmt(&self, f: &mut fmt::Formatter) -> fmt::Result {
        write!(
            f,
            "{:?} {} {} {} {} {} {} {} {}",
            self.verdict,
            self.proof,
            self.disproof,
            self.allocated,
            self.freed,
            self.proved,
            self.disproved,
            self.expanded,
            self.cause
        )
    }
}

impl fmt::Display for Answer {
    fn fmt(&self, f: &mut fmt::Formatter) -> fmt::Result {
        match self {
            Answer::Moves(moves) => write!(f, "{} {}", moves.len(), hex::show(moves)),
            Answer::Record(record) => write!(f, "{}", hex::show(record)),
            Answer::Search(fields) => write!(f, "{}", fields),
            Answer::Full(verdict, first, second) => write!(f, "{} | {} | {}", verdict.name(), first, second),
            Answer::Value(value) => write!(f, "{}", if *value { "True" } else { "False" }),
            Answer::Opening { count, record } => write!(f, "{} {}", count, hex::show(record)),
            Answer::Ok => write!(f, "ok"),
            Answer::Book(book) => write!(f, "{}", book),
            Answer::Added { verdict, count } => write!(f, "{:?} {}", verdict, count),
            Answer::Found(Some(verdict)) => write!(f, "{:?}", verdict),
            Answer::Published(true) => write!(f, "published"),
            Answer::Found(None) | Answer::Published(false) => write!(f, "notheld"),
            Answer::Games(results) => games::show_results(f, results),
            Answer::Simulated(report) => write!(f, "{}", report),
            Answer::Refused { number, index } => write!(f, "refused {} {}", number, index),
        }
    }
}

impl fmt::Display for Call {
    fn fmt(&self, f: &mut fmt::Formatter) -> fmt::Result {
        match self {
            Call::Moves { record, output } => {
                write!(f, "moves {}", hex::show(record))?;
                write_output(f, *output, MOVES_ROOM)
            }
            Call::Replay { record, moves, output } => {
                write!(f, "replay {} {}", hex::show(record), hex::show(moves))?;
                write_output(f, *output, RECORD_ROOM)
            }
            Call::Search { record, rule, pool, limit, budget, interval, stay } => {
                write!(f, "search {} {} {} {} {} {}", hex::show(record), rule, pool, limit, budget, interval)?;
                write_last(f, *stay)
            }
            Call::Full { record, pool, limit, budget, interval, stay } => {
                write!(f, "full {} {} {} {} {}", hex::show(record), pool, limit, budget, interval)?;
                write_last(f, *stay)
            }
            Call::Referee { record, rule } => write!(f, "referee {} {}", hex::show(record), rule),
            Call::Sheets { first, second, output } => {
                write!(f, "sheets {} {}", hex::show(first), hex::show(second))?;
                write_output(f, *output, RECORD_ROOM)
            }
            Call::Book(call) => write!(f, "book {}", call),
            Call::Games(call) => write!(f, "eight {}", call),
            Call::Simulate(call) => write!(f, "sim {}", call),
        }
    }
}

/// The output length is left out where it is the usual one.
fn write_output(f: &mut fmt::Formatter, output: usize, usual: usize) -> fmt::Result {
    if output == usual {
        Ok(())
    } else {
        write!(f, " {}", output)
    }
}

/// Reads a call, or says what is wrong with the line.
pub fn parse(line: &str) -> Result<Call, String> {
    let words: Vec<&str> = line.split_whitespace().collect();
    match words.as_slice() {
        ["moves", record, rest @ ..] => {
            Ok(Call::Moves { record: bytes("record", record)?, output: output(rest, MOVES_ROOM)? })
        }
        ["replay", record, moves, rest @ ..] => Ok(Call::Replay {
            record: bytes("record", record)?,
            moves: bytes("moves", moves)?,
            output: output(rest, RECORD_ROOM)?,
        }),
        ["search", record, rule, pool, limit, budget, interval, rest @ ..] => {
            let (record, rule) = (bytes("record", record)?, number("rule", rule)?);
            let (pool, limit) = (number("pool", pool)?, number("limit", limit)?);
            let (budget, interval) = (number("budget", budget)?, number("interval", interval)?);
            Ok(Call::Search { record, rule, pool, limit, budget, interval, stay: read_last(rest)? })
        }
        ["full", record, pool, limit, budget, interval, rest @ ..] => {
            let record = bytes("record", record)?;
            let (pool, limit) = (number("pool", pool)?, number("limit", limit)?);
            let (budget, interval) = (number("budget", budget)?, number("interval", interval)?);
            Ok(Call::Full { record, pool, limit, budget, interval, stay: read_last(rest)? })
        }
        ["referee", record, rule] => {
            Ok(Call::Referee { record: bytes("record", record)?, rule: number("rule", rule)? })
        }
        ["sheets", first, second, rest @ ..] => Ok(Call::Sheets {
            first: bytes("first sheet", first)?,
            second: bytes("second sheet", second)?,
            output: output(rest, RECORD_ROOM)?,
        }),
        ["book", rest @ ..] => book::parse(rest).map(Call::Book),
        ["eight", rest @ ..] => games::parse(rest).map(Call::Games),
        ["sim", rest @ ..] => simulation::parse(rest).map(Call::Simulate),
        words => Err(no_call(words)),
    }
}

/// Why the words of a line are no call.
fn no_call(words: &[&str]) -> String {
    match words.first().map(|word| (word, Kind::named(word))) {
        None => "no call".to_string(),
        Some((word, None)) => format!("no call is named {:?}", word),
        Some((word, Some(kind))) => format!("{} takes {}", word, kind.takes()),
    }
}

pub(crate) fn bytes(what: &str, text: &str) -> Result<Vec<u8>, String> {
    hex::read(text).ok_or_else(|| format!("{}: {:?} is not whole bytes in hexadecimal, nor -", what, text))
}

pub(crate) fn number<T: std::str::FromStr>(what: &str, text: &str) -> Result<T, String> {
    text.parse().map_err(|_| format!("{}: {:?} is not a number of 64 bits", what, text))
}

fn output(rest: &[&str], usual: usize) -> Result<usize, String> {
    match rest {
        [] => Ok(usual),
        [length] => match number("output length", length)? {
            length if length > LONGEST_OUTPUT => Err(format!("no buffer over {} bytes is lent", LONGEST_OUTPUT)),
            length => Ok(length),
        },
        [_, more, ..] => Err(format!("nothing comes after the output length, but {:?} does", more)),
    }
}
