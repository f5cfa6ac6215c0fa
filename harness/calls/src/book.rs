//! A book of verdicts (MANUAL, Book of verdicts) as plain code of our own, and its lines. A tool keeps one book between
//! its lines, at first without bytes and with count 0:
//!
//! ```text
//! book new ENTRIES                                                     ok
//! book set BYTES COUNT                                                 ok
//! book dump                                                            COUNT BYTES
//! book add WHO RECORD RULE POOL-NODES LIMIT BUDGET INTERVAL [MARGIN]   True COUNT, False COUNT or Unknown COUNT
//! book lookup WHO RECORD RULE                                          True, False or notheld
//! book publish WHO RECORD RULE                                         published or notheld
//! ```
//!
//! WHO is `arbiter` or `trainer`. A book's bytes are hexadecimal, `-` for none. `stay` has the form of a margin.

use crate::hex;
use crate::line::{bytes, number, Answer, Verdict, LONGEST_OUTPUT};
use crate::record::LENGTH;
use crate::stay::{read_last, write_last, Stay};
use std::fmt;

/// Bytes of an entry: a record, and one byte of rule, verdict and four bits more.
pub const ENTRY: usize = LENGTH + 1;
/// The last of those four bits, 1 in a published entry.
pub const MARK: u8 = 1;
/// What comes after the name of the call.
pub const TAKES: &str = "new ENTRIES, set BYTES COUNT, dump, \
    add WHO RECORD RULE POOL-NODES LIMIT BUDGET INTERVAL [MARGIN], lookup WHO RECORD RULE or publish WHO RECORD RULE";

/// Who is calling.
#[derive(Clone, Copy, Debug, PartialEq, Eq)]
pub enum Who {
    Arbiter,
    Trainer,
}

impl Who {
    pub const ALL: [Who; 2] = [Who::Arbiter, Who::Trainer];

    /// The word of a line.
    pub fn name(self) -> &'static str {
        match self {
            Who::Arbiter => "arbiter",
            Who::Trainer => "trainer",
        }
    }

    pub fn is_trainer(self) -> bool {
        self == Who::Trainer
    }

    /// The caller of this word, or what is wrong with it.
    fn named(word: &str) -> Result<Who, String> {
        let named = Who::ALL.into_iter().find(|who| who.name() == word);
        named.ok_or_else(|| format!("WHO is {}, not {:?}", Who::ALL.map(Who::name).join(" or "), word))
    }
}

/// A book as it is lent: its bytes, and how many of its entries are used.
#[derive(Clone, Debug, Default, PartialEq, Eq)]
pub struct Book {
    pub bytes: Vec<u8>,
    pub count: u64,
}

#[derive(Clone, Debug, PartialEq, Eq)]
pub enum BookCall {
    New { entries: usize },
    Set(Book),
    Dump,
    Add { who: Who, record: Vec<u8>, rule: u64, pool: u64, limit: u64, budget: u64, interval: u64, stay: Stay },
    Lookup { who: Who, record: Vec<u8>, rule: u64 },
    Publish { who: Who, record: Vec<u8>, rule: u64 },
}

impl Book {
    /// Zeros, and no entry is used.
    pub fn empty(entries: usize) -> Book {
        Book { bytes: vec![0; ENTRY * entries], count: 0 }
    }

    /// How many entries there is room for.
    pub fn entries(&self) -> u64 {
        (self.bytes.len() / ENTRY) as u64
    }

    /// Check 17 fails.
    pub fn is_broken(&self) -> bool {
        !self.bytes.len().is_multiple_of(ENTRY) || self.count > self.entries()
    }

    /// The place and the verdict, True or False, of the first used entry with the record, the rule and such a verdict.
    /// A trainer passes over those that are not published.
    fn first_held(&self, who: Who, record: &[u8], rule: u64) -> Option<(usize, Verdict)> {
        let used = self.bytes.chunks_exact(ENTRY).take(self.count as usize).enumerate();
        let of_pair = used.filter(|(_, e)| e[..LENGTH] == *record && u64::from(e[LENGTH] / 64) == rule);
        let mut shown = of_pair.filter(|(_, e)| !who.is_trainer() || e[LENGTH] & MARK != 0);
        shown.find_map(|(at, e)| match e[LENGTH] / 16 % 4 {
            1 => Some((at, Verdict::True)),
            2 => Some((at, Verdict::False)),
            _ => None,
        })
    }

    /// The verdict that the caller finds for the record and the rule.
    pub fn held(&self, who: Who, record: &[u8], rule: u64) -> Option<Verdict> {
        self.first_held(who, record, rule).map(|(_, verdict)| verdict)
    }

    /// Sets the mark of the entry that an arbiter finds, and says whether there is one.
    pub fn publish(&mut self, record: &[u8], rule: u64) -> bool {
        let found = self.first_held(Who::Arbiter, record, rule);
        if let Some((at, _)) = found {
            self.bytes[ENTRY * at + LENGTH] |= MARK;
        }
        found.is_some()
    }

    /// Writes an entry at the count, if there is room, and counts it. Nothing is done with Unknown.
    pub fn store(&mut self, record: &[u8], rule: u64, verdict: Verdict) {
        let place = self.bytes.chunks_exact_mut(ENTRY).nth(self.count as usize);
        if let Some(place) = place.filter(|_| verdict != Verdict::Unknown) {
            place.copy_from_slice(&entry(record, rule, verdict as u8, 0));
            self.count += 1;
        }
    }
}

/// The bytes of an entry by its record, its rule and its verdict (two bits each) and its last four bits.
pub fn entry(record: &[u8], rule: u64, verdict: u8, low: u8) -> Vec<u8> {
    [record, &[64 * (rule % 4) as u8 + 16 * verdict + low]].concat()
}

impl BookCall {
    /// What a tool does itself: it sets its book or shows it. The others are calls, and get no answer here.
    pub fn by_the_tool(&self, book: &mut Book) -> Option<Answer> {
        match self {
            BookCall::New { entries } => *book = Book::empty(*entries),
            BookCall::Set(given) => book.clone_from(given),
            BookCall::Dump => return Some(Answer::Book(book.clone())),
            BookCall::Add { .. } | BookCall::Lookup { .. } | BookCall::Publish { .. } => return None,
        }
        Some(Answer::Ok)
    }

    /// Who calls, the record and the rule; there are none where a tool does it itself.
    pub fn asked(&self) -> Option<(Who, &[u8], u64)> {
        match self {
            BookCall::New { .. } | BookCall::Set(_) | BookCall::Dump => None,
            BookCall::Add { who, record, rule, .. }
            | BookCall::Lookup { who, record, rule }
            | BookCall::Publish { who, record, rule } => Some((*who, record, *rule)),
        }
    }

    /// The words that its line starts with, up to who calls.
    pub fn name(&self) -> String {
        let word = match self {
            BookCall::New { .. } => "new",
            BookCall::Set(_) => "set",
            BookCall::Dump => "dump",
            BookCall::Add { .. } => "add",
            BookCall::Lookup { .. } => "lookup",
            BookCall::Publish { .. } => "publish",
        };
        self.asked().map_or(word.to_string(), |(who, ..)| format!("{} {}", word, who.name()))
    }

    /// Whether the book before has no part in what follows.
    pub fn begins_a_list(&self) -> bool {
        matches!(self, BookCall::New { .. } | BookCall::Set(_))
    }
}

impl fmt::Display for Book {
    fn fmt(&self, f: &mut fmt::Formatter) -> fmt::Result {
        write!(f, "{} {}", self.count, hex::show(&self.bytes))
    }
}

impl fmt::Display for BookCall {
    fn fmt(&self, f: &mut fmt::Formatter) -> fmt::Result {
        write!(f, "{}", self.name())?;
        match self {
            BookCall::New { entries } => write!(f, " {}", entries),
            BookCall::Set(book) => write!(f, " {} {}", hex::show(&book.bytes), book.count),
            BookCall::Dump => Ok(()),
            BookCall::Add { record, rule, pool, limit, budget, interval, stay, .. } => {
                write!(f, " {} {} {} {} {} {}", hex::show(record), rule, pool, limit, budget, interval)?;
                write_last(f, *stay)
            }
            BookCall::Lookup { record, rule, .. } | BookCall::Publish { record, rule, .. } => {
                write!(f, " {} {}", hex::show(record), rule)
            }
        }
    }
}

/// Reads what comes after the name of the call, or says what is wrong with it.
pub fn parse(words: &[&str]) -> Result<BookCall, String> {
    match words {
        ["new", entries] => match number("entries", entries)? {
            entries if entries > LONGEST_OUTPUT / ENTRY => {
                Err(format!("no buffer over {} bytes is lent, and an entry has {}", LONGEST_OUTPUT, ENTRY))
            }
            entries => Ok(BookCall::New { entries }),
        },
        ["set", book, count] => Ok(BookCall::Set(Book { bytes: bytes("book", book)?, count: number("count", count)? })),
        ["dump"] => Ok(BookCall::Dump),
        ["add", who, record, rule, pool, limit, budget, interval, rest @ ..] => {
            let (who, record, rule) = caller_and_pair(who, record, rule)?;
            let (pool, limit) = (number("pool", pool)?, number("limit", limit)?);
            let (budget, interval) = (number("budget", budget)?, number("interval", interval)?);
            Ok(BookCall::Add { who, record, rule, pool, limit, budget, interval, stay: read_last(rest)? })
        }
        ["lookup", who, record, rule] => {
            let (who, record, rule) = caller_and_pair(who, record, rule)?;
            Ok(BookCall::Lookup { who, record, rule })
        }
        ["publish", who, record, rule] => {
            let (who, record, rule) = caller_and_pair(who, record, rule)?;
            Ok(BookCall::Publish { who, record, rule })
        }
        _ => Err(format!("book takes {}", TAKES)),
    }
}

/// What the words of every call begin with.
fn caller_and_pair(who: &str, record: &str, rule: &str) -> Result<(Who, Vec<u8>, u64), String> {
    Ok((Who::named(who)?, bytes("record", record)?, number("rule", rule)?))
}
