//! Lists of a book's lines: adds, lookups and publishes of a few pairs by arbiters and trainers, over small books that
//! fill up and over books that are broken, that contradict themselves or have entries past the count.

use super::damaged::{damaged, damaged_by, Damage};
use super::margins::{no_margin, stay};
use super::positions::{accepted, ending, late};
use super::random::Random;
use super::reading::turned;
use super::settings::{self, Settings, TOO_LARGE};
use calls::book::{entry, ENTRY, MARK};
use calls::record::LENGTH;
use calls::table::{LARGEST_BUDGET, LARGEST_INTERVAL, LARGEST_POOL, LARGEST_RULE};
use calls::{Book, BookCall, Stay, Who};

/// The most entries of a book, and the most past those that are used.
pub const MOST_ENTRIES: usize = 50;
const MOST_SPARE: usize = 6;
/// What turns the verdict bits of an entry, True to False and back.
const OTHER_VERDICT: u8 = 0x30;

/// A list: it begins with a book, and its last line shows every byte. Half of the lines between ask for the pair of the
/// line before.
pub fn list(random: &mut Random) -> Vec<BookCall> {
    let pairs = Pairs::any(random);
    let mut lines = vec![beginning(random, &pairs)];
    let mut pair = pairs.one(random);
    for _ in 0..2 + random.below(27) {
        if random.once_in(2) {
            pair = pairs.one(random);
        }
        lines.push(line(random, &pair));
    }
    lines.push(BookCall::Dump);
    lines
}

/// A record and a rule.
type Pair = (Vec<u8>, u64);

/// What a list is about: a few records, under one rule or all three.
struct Pairs {
    records: Vec<Vec<u8>>,
    rules: Vec<u64>,
}

impl Pairs {
    /// A small search answers most of the records; one is refused now and then.
    fn any(random: &mut Random) -> Pairs {
        let few = random.pick(&[1, 1, 2, 3]);
        let mut records: Vec<Vec<u8>> = (0..few).map(|_| ending(random).write().to_vec()).collect();
        match random.below(7) {
            0 => records.push(damaged(random)),
            1 => records.push(turned(&records[0], random.index(8 * LENGTH))),
            2 => records.push(late(random).write().to_vec()),
            3 => records.push(accepted(random).write().to_vec()),
            4 => records.push(damaged_by(random, Damage::Choice)),
            _ => (),
        }
        let rules = if random.once_in(3) { vec![0, 1, 2] } else { vec![random.below(3)] };
        Pairs { records, rules }
    }

    /// One of them, now and then with one bit of the record turned.
    fn one(&self, random: &mut Random) -> Pair {
        let mut record = self.records[random.index(self.records.len())].clone();
        if random.once_in(12) && !record.is_empty() {
            record = turned(&record, random.index(8 * record.len()));
        }
        (record, random.pick(&self.rules))
    }
}

/// An empty book, or one with entries before the count, past it, or both.
fn beginning(random: &mut Random, pairs: &Pairs) -> BookCall {
    if random.once_in(2) {
        return BookCall::New { entries: random.pick(&[0, 1, 1, 2, 3, 4, 6, 9]) };
    }
    let spare = random.pick(&[0, 0, 1, 2, 4, MOST_SPARE]);
    let used = match random.below(20) {
        0 => random.index(MOST_ENTRIES - MOST_SPARE + 1),
        _ => random.pick(&[0, 1, 2, 3, 4, 5, 6, 8]),
    };
    let mut bytes = entries(random, pairs, used + spare);
    if random.once_in(2) {
        bytes[ENTRY * used..].fill(0);
    }
    let count = count(random, used as u64, (used + spare) as u64);
    if random.once_in(8) {
        bytes.resize(other_length(random, bytes.len()), 0x10);
    }
    BookCall::Set(Book { bytes, count })
}

/// So many entries, one after the other. One in three contradicts the one before it: it has the same pair, the other
/// verdict, and is published if that one is not.
fn entries(random: &mut Random, pairs: &Pairs, number: usize) -> Vec<u8> {
    let mut last = any_entry(random, pairs);
    let next = |_| {
        let next = last.clone();
        last = any_entry(random, pairs);
        if random.once_in(3) {
            last.clone_from(&next);
            last[LENGTH] ^= OTHER_VERDICT | MARK;
        }
        next
    };
    (0..number).flat_map(next).collect()
}

/// An entry of one of the pairs, most often with a verdict, published or not. Now and then check 22 refuses its record,
/// or there is something in the bits that nobody looks at.
fn any_entry(random: &mut Random, pairs: &Pairs) -> Vec<u8> {
    let (mut record, mut rule) = pairs.one(random);
    record.resize(LENGTH, 0);
    if random.once_in(12) {
        record = damaged_by(random, Damage::Choice);
    }
    if random.once_in(20) {
        rule = LARGEST_RULE + 1;
    }
    let verdict = random.pick(&[0, 1, 1, 1, 2, 2, 2, 3]);
    let low = if random.once_in(3) { random.below(16) as u8 } else { random.pick(&[0, MARK]) };
    entry(&record, rule, verdict, low)
}

/// How many entries are used: now and then another number of them, or more than there are.
fn count(random: &mut Random, used: u64, entries: u64) -> u64 {
    match random.below(12) {
        0..=8 => used,
        9 => random.below(entries + 1),
        10 => entries + 1,
        _ => random.pick(&[1 << 32, (1 << 32) + entries, u64::MAX / ENTRY as u64 + 1, 1 << 63, u64::MAX]),
    }
}

/// A length that is no multiple of an entry's, most often close to one.
fn other_length(random: &mut Random, length: usize) -> usize {
    let near = random.pick(&[length.saturating_sub(1), length + 1, 21, 23, 43, 45, 1]);
    if random.once_in(3) || near.is_multiple_of(ENTRY) {
        length / ENTRY * ENTRY + 1 + random.index(ENTRY - 1)
    } else {
        near
    }
}

/// A lookup by either, an add or a publish most often by an arbiter, or a dump.
fn line(random: &mut Random, (record, rule): &Pair) -> BookCall {
    let (record, rule) = (record.clone(), *rule);
    let who = if random.once_in(6) { Who::Trainer } else { Who::Arbiter };
    match random.below(18) {
        0 => BookCall::Dump,
        1..=6 => BookCall::Lookup { who: random.pick(&Who::ALL), record, rule: this_or_no_rule(random, rule) },
        7..=10 => BookCall::Publish { who, record, rule: this_or_no_rule(random, rule) },
        _ => {
            let Settings { rule, pool, limit, budget, interval, stay } = add_settings(random, rule);
            BookCall::Add { who, record, rule, pool, limit, budget, interval, stay }
        }
    }
}

/// This rule; now and then a number that is no rule.
fn this_or_no_rule(random: &mut Random, rule: u64) -> u64 {
    match settings::rule(random) {
        0..=LARGEST_RULE => rule,
        no_rule => no_rule,
    }
}

/// A setting of any search, but more often one that is refused: in many books a later check would refuse the add, too.
fn add_stay(random: &mut Random) -> Stay {
    if random.once_in(12) {
        Stay::Margin(no_margin(random))
    } else {
        stay(random)
    }
}

/// Settings of an add: enough for most endings, or too little for any, or with one that is refused.
fn add_settings(random: &mut Random, rule: u64) -> Settings {
    let mut settings = Settings {
        rule,
        pool: random.pick(&[1, 2, 6, 20, 82, 200, 1_000, 1_000, 3_276, 3_276, 4_096, 4_096]),
        limit: random.pick(&[0, 20, 1_000, u64::MAX, u64::MAX, u64::MAX]),
        budget: random.pick(&[0, 1, 2, 10, 100, 1_000, 1_000, 3_000, 3_000]),
        interval: random.pick(&[1, 7, 100, 10_000]),
        stay: add_stay(&mut random.aside()),
    };
    match random.below(60) {
        0 => settings.pool = 0,
        1 => settings.rule = random.pick(&[3, 4, 64, 256, u64::MAX]),
        2 => settings.budget = random.pick(&TOO_LARGE),
        3 => settings.interval = random.pick(&[0, LARGEST_INTERVAL + 1, u64::MAX]),
        4 if random.once_in(20) => settings.pool = LARGEST_POOL + 1,
        5..=8 => settings.budget = LARGEST_BUDGET,
        _ => (),
    }
    settings
}
