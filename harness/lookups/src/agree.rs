//! Both sides give the same answers, also where a pair is held.

use crate::books::{position, Book, Question};
use crate::sides::{lookup, SIDES};
use calls::book::{entry, ENTRY, MARK};
use calls::{hex, Who};
use oracle::generate::Random;

/// How many small books are tried, and the most entries of one.
const BOOKS: usize = 5_000;
const ENTRIES: u64 = 30;
/// So few different records that pairs come more than once.
const RECORDS: usize = 4;
const SEED: u64 = 1;

/// How many questions were answered alike, and how many of them with a verdict.
#[derive(Default)]
pub struct Agreed {
    pub asked: usize,
    pub held: usize,
}

impl Agreed {
    /// Asks both sides of the first `count` entries; gives the verdict.
    fn ask(&mut self, bytes: &[u8], count: u64, q: &Question) -> Result<u32, String> {
        let [ours, plain] = SIDES.map(|side| lookup(side, bytes, count, q));
        if ours != plain {
            let shown = format!("{}, {} under rule {}, count {}", q.who.name(), hex::show(&q.record), q.rule, count);
            return Err(format!("{}: ours {:?}, the loop {:?}", shown, ours, plain));
        }
        self.asked += 1;
        self.held += usize::from(ours != Ok(0));
        ours
    }

    /// No question of the book is held; with one more entry at its end, a published one, each is.
    pub fn of_a_book(&mut self, book: &Book) -> Result<(), String> {
        let mut bytes = book.bytes.clone();
        bytes.resize(bytes.len() + ENTRY, 0);
        let end = book.bytes.len();
        for q in &book.questions {
            bytes[end..].copy_from_slice(&entry(&q.record, q.rule, 2, MARK));
            let found = [self.ask(&bytes, book.count(), q)?, self.ask(&bytes, book.count() + 1, q)?];
            if found != [0, 2] {
                return Err(format!("verdicts {:?} for {}", found, hex::show(&q.record)));
            }
        }
        Ok(())
    }

    /// Small books of few records with any last bytes, so that pairs come often, contradict each other, are published
    /// or not, or have no verdict. Every pair is asked for by both callers, with any count.
    pub fn of_small_books(&mut self) -> Result<(), String> {
        let mut random = Random::new(SEED);
        (0..BOOKS).try_for_each(|_| self.of_a_small_book(&mut random))
    }

    fn of_a_small_book(&mut self, random: &mut Random) -> Result<(), String> {
        let records = [(); RECORDS].map(|()| position(random));
        let mut bytes = Vec::new();
        for _ in 0..random.below(ENTRIES + 1) {
            bytes.extend(random.pick(&records));
            bytes.push(random.byte());
        }
        let count = random.below((bytes.len() / ENTRY + 1) as u64);
        let pairs = records.iter().flat_map(|record| (0..3).map(|rule| (*record, rule)));
        let mut asked = pairs.flat_map(|(record, rule)| Who::ALL.map(|who| Question { who, record, rule }));
        asked.try_for_each(|q| self.ask(&bytes, count, &q).map(|_| ()))
    }
}
