//! A lookup by the proved library and by the loop in C.

use crate::books::{Book, Question};
use std::hint::black_box;
use uttt::ffi;

extern "C" {
    fn plain_lookup(trainer: bool, book: *const u8, count: u64, record: *const u8, rule: u64) -> u32;
}

#[derive(Clone, Copy)]
pub enum Side {
    Ours,
    Plain,
}

pub const SIDES: [Side; 2] = [Side::Ours, Side::Plain];

/// The verdict found in the first `count` entries: 1, 2, or 0 if the pair is not held for who asks. Ours is refused
/// where the loop is not: if the record is no position.
pub fn lookup(side: Side, bytes: &[u8], count: u64, q: &Question) -> Result<u32, String> {
    match side {
        Side::Ours => {
            let answer = ours(bytes, count, q);
            if answer.code == 0 {
                Ok(answer.verdict)
            } else {
                Err(format!("refused with {}", answer.code))
            }
        }
        Side::Plain => Ok(plain(bytes, count, q)),
    }
}

fn ours(bytes: &[u8], count: u64, q: &Question) -> ffi::LookupAnswer {
    let (trainer, at, length) = (q.who.is_trainer(), bytes.as_ptr(), bytes.len());
    // SAFETY: pointers and lengths belong together, and nothing is written.
    unsafe { ffi::uttt_book_lookup(trainer, at, length, count, q.record.as_ptr(), q.record.len(), q.rule) }
}

fn plain(bytes: &[u8], count: u64, q: &Question) -> u32 {
    // SAFETY: the loop reads 22 bytes for each entry counted, which no caller here sets higher, and 21 of the record.
    unsafe { plain_lookup(q.who.is_trainer(), bytes.as_ptr(), count, q.record.as_ptr(), q.rule) }
}

/// Asks every question of the book, so many times one after the other.
pub fn run(side: Side, book: &Book, passes: usize) {
    match side {
        Side::Ours => each(book, passes, |q| ours(&book.bytes, book.count(), q)),
        Side::Plain => each(book, passes, |q| plain(&book.bytes, book.count(), q)),
    }
}

/// All that `run` does but the lookups.
pub fn run_without_lookups(book: &Book, passes: usize) {
    each(book, passes, |q| q.rule);
}

fn each<T>(book: &Book, passes: usize, ask: impl Fn(&Question) -> T) {
    for _ in 0..passes {
        for question in &book.questions {
            black_box(&ask(black_box(question)));
        }
    }
}
