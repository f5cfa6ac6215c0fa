//! What the calls that load one record are lent, so that a wrong library can do them otherwise (`wrong_choices`);
//! `player_calls` has what simulated players are.

use crate::book_calls::{Add, Asked as Pair};
use crate::run::{NODE_BYTES, WORD_BYTES};
use crate::search_calls::{self, given, Asked};
use calls::record::{Position, LENGTH};
use calls::table::{self, MOVES_ROOM, RECORD_ROOM};
use calls::{Book, Stay, Who};
use uttt::ffi;

/// A call that loads one record.
pub trait Loads: Copy {
    type Answer;
    /// Where the record is, and its length.
    fn record(&mut self) -> (&mut *const u8, usize);
    unsafe fn call(self) -> Self::Answer;
    fn refused(self, code: u32) -> Self::Answer;
    fn code(answer: &Self::Answer) -> u32;
    /// The check that refuses the same call of another record, by the table.
    unsafe fn refusal_with(&self, record: &[u8]) -> Option<u32>;
    /// Check 19 refuses it, which comes ahead of the record.
    fn is_by_a_writing_trainer(&self) -> bool {
        false
    }

    /// The same of another record, as long.
    fn with(mut self, record: &[u8]) -> Self {
        *self.record().0 = record.as_ptr();
        self
    }

    /// The position, if the record has 21 bytes.
    unsafe fn position(mut self) -> Option<Position> {
        let (at, n) = self.record();
        (n == LENGTH).then(|| Position::read(&*at.cast()))
    }
}

#[derive(Clone, Copy)]
pub struct Replay {
    pub record: *const u8,
    pub n: usize,
    pub moves: *const u8,
    pub k: usize,
    pub out: *mut u8,
    pub room: usize,
}

#[derive(Clone, Copy)]
pub struct Moves {
    pub record: *const u8,
    pub n: usize,
    pub out: *mut u8,
    pub room: usize,
}

#[derive(Clone, Copy)]
pub struct Referee {
    pub record: *const u8,
    pub n: usize,
    pub rule: u64,
}

/// Calls that are lent the same, told apart.
#[derive(Clone, Copy)]
pub struct Search(pub Asked);
#[derive(Clone, Copy)]
pub struct Full(pub Asked);
#[derive(Clone, Copy)]
pub struct Lookup(pub Pair);
#[derive(Clone, Copy)]
pub struct Publish(pub Pair);

impl Loads for Replay {
    type Answer = ffi::ReplayAnswer;

    fn record(&mut self) -> (&mut *const u8, usize) {
        (&mut self.record, self.n)
    }

    unsafe fn call(self) -> ffi::ReplayAnswer {
        ffi::uttt_replay(self.record, self.n, self.moves, self.k, self.out, self.room)
    }

    fn refused(self, code: u32) -> ffi::ReplayAnswer {
        ffi::ReplayAnswer { code, index: 0 }
    }

    fn code(answer: &ffi::ReplayAnswer) -> u32 {
        answer.code
    }

    unsafe fn refusal_with(&self, record: &[u8]) -> Option<u32> {
        table::output_refusal(record, self.room, RECORD_ROOM)
    }
}

impl Loads for Moves {
    type Answer = ffi::MovesAnswer;

    fn record(&mut self) -> (&mut *const u8, usize) {
        (&mut self.record, self.n)
    }

    unsafe fn call(self) -> ffi::MovesAnswer {
        ffi::uttt_legal_moves(self.record, self.n, self.out, self.room)
    }

    fn refused(self, code: u32) -> ffi::MovesAnswer {
        ffi::MovesAnswer { code, index: 0, count: 0 }
    }

    fn code(answer: &ffi::MovesAnswer) -> u32 {
        answer.code
    }

    unsafe fn refusal_with(&self, record: &[u8]) -> Option<u32> {
        table::output_refusal(record, self.room, MOVES_ROOM)
    }
}

impl Loads for Referee {
    type Answer = ffi::RefereeAnswer;

    fn record(&mut self) -> (&mut *const u8, usize) {
        (&mut self.record, self.n)
    }

    unsafe fn call(self) -> ffi::RefereeAnswer {
        ffi::uttt_referee(self.record, self.n, self.rule)
    }

    fn refused(self, code: u32) -> ffi::RefereeAnswer {
        ffi::RefereeAnswer { code, index: 0, value: 0 }
    }

    fn code(answer: &ffi::RefereeAnswer) -> u32 {
        answer.code
    }

    unsafe fn refusal_with(&self, record: &[u8]) -> Option<u32> {
        table::referee_refusal(record, self.rule)
    }
}

/// Whole nodes of so many words.
pub fn nodes(words: usize) -> u64 {
    (words / (NODE_BYTES / WORD_BYTES)) as u64
}

impl Asked {
    fn stay(&self) -> Stay {
        given(self.staying, self.margin)
    }
}

impl Loads for Search {
    type Answer = ffi::SearchAnswer;

    fn record(&mut self) -> (&mut *const u8, usize) {
        (&mut self.0.record, self.0.n)
    }

    unsafe fn call(self) -> ffi::SearchAnswer {
        self.0.search()
    }

    fn refused(self, code: u32) -> ffi::SearchAnswer {
        search_calls::refused(code)
    }

    fn code(answer: &ffi::SearchAnswer) -> u32 {
        answer.code
    }

    unsafe fn refusal_with(&self, record: &[u8]) -> Option<u32> {
        let Asked { k, rule, limits: [_, budget, interval], .. } = self.0;
        table::search_refusal(record, rule, nodes(k), budget, interval, self.0.stay())
    }
}

impl Loads for Full {
    type Answer = ffi::FullAnswer;

    fn record(&mut self) -> (&mut *const u8, usize) {
        (&mut self.0.record, self.0.n)
    }

    unsafe fn call(self) -> ffi::FullAnswer {
        self.0.full()
    }

    fn refused(self, code: u32) -> ffi::FullAnswer {
        ffi::FullAnswer { code, index: 0, verdict: 0, first: Default::default(), second: Default::default() }
    }

    fn code(answer: &ffi::FullAnswer) -> u32 {
        answer.code
    }

    unsafe fn refusal_with(&self, record: &[u8]) -> Option<u32> {
        let Asked { k, limits: [_, budget, interval], .. } = self.0;
        table::full_refusal(record, nodes(k), budget, interval, self.0.stay())
    }
}

impl Pair {
    fn who(&self) -> Who {
        if self.trainer {
            Who::Trainer
        } else {
            Who::Arbiter
        }
    }

    pub unsafe fn whole(&self) -> Book {
        Book { bytes: self.bytes(), count: self.count }
    }
}

impl Loads for Lookup {
    type Answer = ffi::LookupAnswer;

    fn record(&mut self) -> (&mut *const u8, usize) {
        (&mut self.0.record, self.0.n)
    }

    unsafe fn call(self) -> ffi::LookupAnswer {
        self.0.lookup()
    }

    fn refused(self, code: u32) -> ffi::LookupAnswer {
        ffi::LookupAnswer { code, index: 0, verdict: 0 }
    }

    fn code(answer: &ffi::LookupAnswer) -> u32 {
        answer.code
    }

    unsafe fn refusal_with(&self, record: &[u8]) -> Option<u32> {
        table::lookup_refusal(&self.0.whole(), record, self.0.rule)
    }
}

impl Loads for Publish {
    type Answer = ffi::PublishAnswer;

    fn record(&mut self) -> (&mut *const u8, usize) {
        (&mut self.0.record, self.0.n)
    }

    unsafe fn call(self) -> ffi::PublishAnswer {
        self.0.publish()
    }

    fn refused(self, code: u32) -> ffi::PublishAnswer {
        ffi::PublishAnswer { code, index: 0, published: 0 }
    }

    fn code(answer: &ffi::PublishAnswer) -> u32 {
        answer.code
    }

    unsafe fn refusal_with(&self, record: &[u8]) -> Option<u32> {
        table::publish_refusal(&self.0.whole(), self.0.who(), record, self.0.rule)
    }

    fn is_by_a_writing_trainer(&self) -> bool {
        self.0.trainer
    }
}

impl Loads for Add {
    type Answer = ffi::AddAnswer;

    fn record(&mut self) -> (&mut *const u8, usize) {
        (&mut self.asked.record, self.asked.n)
    }

    unsafe fn call(self) -> ffi::AddAnswer {
        self.add()
    }

    fn refused(self, code: u32) -> ffi::AddAnswer {
        Add::refused(self, code)
    }

    fn code(answer: &ffi::AddAnswer) -> u32 {
        answer.code
    }

    unsafe fn refusal_with(&self, record: &[u8]) -> Option<u32> {
        let (Pair { rule, .. }, [_, budget, interval]) = (self.asked, self.limits);
        let (limits, stay) = ([nodes(self.k), budget, interval], given(self.staying, self.margin));
        table::add_refusal(&self.asked.whole(), self.asked.who(), record, rule, limits, stay)
    }

    fn is_by_a_writing_trainer(&self) -> bool {
        self.asked.trainer
    }
}

/// A replay that is done otherwise.
macro_rules! replay {
    ($name:ident, |$lent:ident| $done:expr) => {
        unsafe extern "C" fn $name(
            record: *const u8,
            n: usize,
            moves: *const u8,
            k: usize,
            out: *mut u8,
            room: usize,
        ) -> ffi::ReplayAnswer {
            let $lent = $crate::record_calls::Replay { record, n, moves, k, out, room };
            $done
        }
    };
}

/// A legal moves that is done otherwise.
macro_rules! moves {
    ($name:ident, |$lent:ident| $done:expr) => {
        unsafe extern "C" fn $name(record: *const u8, n: usize, out: *mut u8, room: usize) -> ffi::MovesAnswer {
            let $lent = $crate::record_calls::Moves { record, n, out, room };
            $done
        }
    };
}

/// A referee that is done otherwise.
macro_rules! referee {
    ($name:ident, |$lent:ident| $done:expr) => {
        unsafe extern "C" fn $name(record: *const u8, n: usize, rule: u64) -> ffi::RefereeAnswer {
            let $lent = $crate::record_calls::Referee { record, n, rule };
            $done
        }
    };
}

pub(crate) use {moves, referee, replay};
