//! The exports as include/ultimattt.h has them. tests/declarations.rs holds these declarations to the library's text.

use std::mem::size_of;

#[repr(C)]
pub struct ReplayAnswer {
    pub code: u32,
    pub index: u64,
}

#[repr(C)]
pub struct MovesAnswer {
    pub code: u32,
    pub index: u64,
    pub count: u64,
}

#[repr(C)]
pub struct RefereeAnswer {
    pub code: u32,
    pub index: u64,
    pub value: u32,
}

#[repr(C)]
#[derive(Clone, Copy, Default, PartialEq, Eq)]
pub struct ResultFields {
    pub verdict: u32,
    pub proof: u32,
    pub disproof: u32,
    pub allocated: u64,
    pub freed: u64,
    pub proved: u64,
    pub disproved: u64,
    pub expanded: u64,
    pub cause: u32,
}

#[repr(C)]
pub struct SearchAnswer {
    pub code: u32,
    pub index: u64,
    pub result: ResultFields,
}

#[repr(C)]
pub struct FullAnswer {
    pub code: u32,
    pub index: u64,
    pub verdict: u32,
    pub first: ResultFields,
    pub second: ResultFields,
}

#[repr(C)]
pub struct GamesAnswer {
    pub code: u32,
    pub index: u64,
    pub count: u64,
    pub results: [ResultFields; 8],
}

#[repr(C)]
pub struct SimulateAnswer {
    pub code: u32,
    pub index: u64,
    pub x_wins: u64,
    pub o_wins: u64,
    pub draws: u64,
    pub expanded: u64,
}

#[repr(C)]
pub struct LookupAnswer {
    pub code: u32,
    pub index: u64,
    pub verdict: u32,
}

#[repr(C)]
pub struct AddAnswer {
    pub code: u32,
    pub index: u64,
    pub verdict: u32,
    pub count: u64,
}

#[repr(C)]
pub struct PublishAnswer {
    pub code: u32,
    pub index: u64,
    pub published: u32,
}

const _: () = assert!(size_of::<ReplayAnswer>() == 16 && size_of::<MovesAnswer>() == 24);
const _: () = assert!(size_of::<RefereeAnswer>() == 24 && size_of::<ResultFields>() == 64);
const _: () = assert!(size_of::<SearchAnswer>() == 80 && size_of::<FullAnswer>() == 152);
const _: () = assert!(size_of::<LookupAnswer>() == 24 && size_of::<AddAnswer>() == 32);
const _: () = assert!(size_of::<PublishAnswer>() == 24 && size_of::<GamesAnswer>() == 536);
const _: () = assert!(size_of::<SimulateAnswer>() == 48);

extern "C" {
    pub fn uttt_replay(
        record: *const u8,
        record_length: usize,
        moves: *const u8,
        moves_length: usize,
        output: *mut u8,
        output_length: usize,
    ) -> ReplayAnswer;

    pub fn uttt_legal_moves(
        record: *const u8,
        record_length: usize,
        output: *mut u8,
        output_length: usize,
    ) -> MovesAnswer;

    pub fn uttt_referee(record: *const u8, record_length: usize, rule: u64) -> RefereeAnswer;

    pub fn uttt_agreed_opening(
        first: *const u8,
        first_length: usize,
        second: *const u8,
        second_length: usize,
        output: *mut u8,
        output_length: usize,
        number: *mut u32,
    ) -> u64;

    pub fn uttt_search(
        record: *const u8,
        record_length: usize,
        pool: *mut u32,
        pool_words: usize,
        rule: u64,
        limit: u64,
        budget: u64,
        interval: u64,
        staying: bool,
        margin: f64,
    ) -> SearchAnswer;

    pub fn uttt_full_verdict(
        record: *const u8,
        record_length: usize,
        pool: *mut u32,
        pool_words: usize,
        limit: u64,
        budget: u64,
        interval: u64,
        staying: bool,
        margin: f64,
    ) -> FullAnswer;

    pub fn uttt_judge_games(
        records: *const u8,
        records_length: usize,
        pool: *mut u32,
        pool_words: usize,
        shares: *const [u64; 8],
        rule: u64,
        limit: u64,
        allowance: u64,
        interval: u64,
        staying: bool,
        margin: f64,
    ) -> GamesAnswer;

    pub fn uttt_simulate(
        record: *const u8,
        record_length: usize,
        pool: *mut u32,
        pool_words: usize,
        seed: u64,
        games: u64,
        limit: u64,
        x_budget: u64,
        o_budget: u64,
        interval: u64,
        staying: bool,
        margin: f64,
    ) -> SimulateAnswer;

    pub fn uttt_book_lookup(
        trainer: bool,
        book: *const u8,
        book_length: usize,
        count: u64,
        record: *const u8,
        record_length: usize,
        rule: u64,
    ) -> LookupAnswer;

    pub fn uttt_book_add(
        trainer: bool,
        book: *mut u8,
        book_length: usize,
        count: u64,
        record: *const u8,
        record_length: usize,
        pool: *mut u32,
        pool_words: usize,
        rule: u64,
        limit: u64,
        budget: u64,
        interval: u64,
        staying: bool,
        margin: f64,
    ) -> AddAnswer;

    pub fn uttt_book_publish(
        trainer: bool,
        book: *mut u8,
        book_length: usize,
        count: u64,
        record: *const u8,
        record_length: usize,
        rule: u64,
    ) -> PublishAnswer;
}
