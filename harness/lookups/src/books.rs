//! Books in which no question's pair is held for who asks, so that a lookup goes through all of their entries.

use calls::book::{entry, ENTRY, MARK};
use calls::record::LENGTH;
use calls::Who;
use oracle::generate::{reached, Random};
use oracle::load;

const SEED: u64 = 1;
/// How many different questions a book of random positions is asked.
const QUESTIONS: usize = 4;

pub type Record = [u8; LENGTH];

/// Who looks up which pair.
#[derive(Clone, Copy)]
pub struct Question {
    pub who: Who,
    pub record: Record,
    pub rule: u64,
}

/// Bytes of entries, all of them used, and what is asked of them.
pub struct Book {
    pub bytes: Vec<u8>,
    pub questions: Vec<Question>,
}

impl Book {
    pub fn count(&self) -> u64 {
        (self.bytes.len() / ENTRY) as u64
    }
}

/// What an entry has in common with the question.
#[derive(Clone, Copy)]
enum Alike {
    /// It is another position of random play.
    Nothing,
    /// All of the record but its last byte.
    Front,
    /// All of the record but its first byte.
    Back,
    /// The whole record, under another rule.
    Record,
    /// The pair, unpublished. Entries of the other kinds are published.
    Pair,
}

pub struct Kind {
    pub name: &'static str,
    pub entries: usize,
    alike: Alike,
    who: Who,
}

const fn kind(name: &'static str, entries: usize, alike: Alike, who: Who) -> Kind {
    Kind { name, entries, alike, who }
}

pub const KINDS: [Kind; 9] = [
    kind("no entries", 0, Alike::Nothing, Who::Arbiter),
    kind("positions of random play", 50, Alike::Nothing, Who::Arbiter),
    kind("positions of random play", 5_000, Alike::Nothing, Who::Arbiter),
    kind("positions of random play", 500_000, Alike::Nothing, Who::Arbiter),
    kind("records that differ in their last byte alone", 5_000, Alike::Front, Who::Arbiter),
    kind("records that differ in their first byte alone", 5_000, Alike::Back, Who::Arbiter),
    kind("the record itself under other rules", 5_000, Alike::Record, Who::Arbiter),
    kind("positions of random play, by a trainer", 5_000, Alike::Nothing, Who::Trainer),
    kind("the pair itself, not published, by a trainer", 5_000, Alike::Pair, Who::Trainer),
];

impl Kind {
    /// The book, the same each time.
    pub fn book(&self) -> Book {
        let mut random = Random::new(SEED);
        let number = if matches!(self.alike, Alike::Nothing) { QUESTIONS } else { 1 };
        let question = |_| Question { who: self.who, record: position(&mut random), rule: random.below(3) };
        let questions: Vec<Question> = (0..number).map(question).collect();
        let bytes = (0..self.entries).flat_map(|_| self.entry(&mut random, &questions)).collect();
        Book { bytes, questions }
    }

    fn entry(&self, random: &mut Random, questions: &[Question]) -> Vec<u8> {
        let Question { mut record, rule, .. } = questions[0];
        let (mut its_rule, mut low) = (random.below(3), MARK);
        match self.alike {
            Alike::Nothing => record = unasked(random, questions),
            Alike::Front => record[LENGTH - 1] ^= change(random),
            Alike::Back => record[0] ^= change(random),
            Alike::Record => its_rule = (rule + 1 + random.below(2)) % 3,
            Alike::Pair => (its_rule, low) = (rule, 0),
        }
        entry(&record, its_rule, 1 + random.below(2) as u8, low)
    }
}

/// A position of random play after 30 to 60 moves, or at the game's end.
pub fn position(random: &mut Random) -> Record {
    let plies = 30 + random.below(31);
    load::record(&reached(random, plies))
}

/// A position that no question is about.
fn unasked(random: &mut Random, questions: &[Question]) -> Record {
    loop {
        let record = position(random);
        if !questions.iter().any(|q| q.record == record) {
            return record;
        }
    }
}

/// What is put on a byte to change it: not 0.
fn change(random: &mut Random) -> u8 {
    1 + random.below(255) as u8
}
