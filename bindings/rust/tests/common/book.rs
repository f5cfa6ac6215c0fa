//! Books for the tests, and calls of them that are accepted.

use super::{budget, pool};
use ultimattt::Caller::{Arbiter, Trainer};
use ultimattt::{Book, Caller, Record, Refusal, Rule, Verdict};

/// Bits of verdict.
pub const TRUE: u8 = 1;
pub const FALSE: u8 = 2;
/// The published mark in an entry's last byte.
pub const MARK: u8 = 1;
/// What lent memory is filled with.
pub const FILL: u8 = 0xEE;
/// More expansions than W and D take.
pub const ENOUGH: u64 = 10;

/// An entry with these two bits of verdict, not published.
pub fn entry(record: &Record, rule: Rule, verdict: u8) -> Vec<u8> {
    let last = (rule.number() as u8) << 6 | verdict << 4;
    [&record[..], &[last]].concat()
}

/// The entry with these bits in its low four: the three that are ignored, and the mark.
pub fn with_low(mut entry: Vec<u8>, low: u8) -> Vec<u8> {
    entry[21] |= low;
    entry
}

pub fn published(record: &Record, rule: Rule, verdict: u8) -> Vec<u8> {
    with_low(entry(record, rule, verdict), MARK)
}

/// A book of these entries, all of them used.
pub fn used(entries: &[Vec<u8>]) -> Book {
    Book::from_bytes(entries.concat(), entries.len())
}

fn looked_up(who: Caller, book: &Book, record: &Record, rule: Rule) -> Option<bool> {
    book.lookup(who, record, rule).expect("an accepted lookup")
}

/// What an arbiter finds.
pub fn found(book: &Book, record: &Record, rule: Rule) -> Option<bool> {
    looked_up(Arbiter, book, record, rule)
}

/// What a trainer finds.
pub fn seen(book: &Book, record: &Record, rule: Rule) -> Option<bool> {
    looked_up(Trainer, book, record, rule)
}

/// An arbiter's add with a new pool.
pub fn add(book: &mut Book, record: &Record, rule: Rule) -> Result<Verdict, Refusal> {
    book.add(Arbiter, record, &mut pool(50), rule, &budget(ENOUGH))
}

/// An arbiter's publish.
pub fn publish(book: &mut Book, record: &Record, rule: Rule) -> bool {
    book.publish(Arbiter, record, rule).expect("an accepted publish")
}
