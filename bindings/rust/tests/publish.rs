//! Publishing (MANUAL, Book of verdicts): the one bit that it sets, and the order of the checks, 19 ahead of all.

mod common;

use common::book::{entry, publish, published, seen, used, with_low, FALSE, FILL, MARK, TRUE};
use common::{d, ffi, refused_records, w, E, FREE_CHOICE, RULES};
use ultimattt::Caller::{Arbiter, Trainer};
use ultimattt::{publish_in, Book, Rule, ENTRY_BYTES};

/// Code, index and published of a publish.
fn publish_raw(trainer: bool, book: &mut [u8], count: u64, record: &[u8], rule: u64) -> (u32, u64, u32) {
    let (at, length) = (book.as_mut_ptr(), book.len());
    // SAFETY: both slices are valid for their lengths, and a &mut overlaps nothing.
    let a = unsafe { ffi::uttt_book_publish(trainer, at, length, count, record.as_ptr(), record.len(), rule) };
    (a.code, a.index, a.published)
}

/// Code, index and verdict of a lookup.
fn lookup_raw(trainer: bool, book: &[u8], count: u64, record: &[u8], rule: u64) -> (u32, u64, u32) {
    let (at, length) = (book.as_ptr(), book.len());
    // SAFETY: both slices are valid for their lengths, and nothing is written.
    let a = unsafe { ffi::uttt_book_lookup(trainer, at, length, count, record.as_ptr(), record.len(), rule) };
    (a.code, a.index, a.verdict)
}

/// Code, index, verdict and count of a trainer's add, whose margin is wrong.
fn trainers_add(book: &mut [u8], count: u64, record: &[u8], pool: &mut [u32], s: [u64; 4]) -> (u32, u64, u32, u64) {
    let (at, length, words, number) = (book.as_mut_ptr(), book.len(), pool.as_mut_ptr(), pool.len());
    let [rule, limit, budget, interval] = s;
    let (bytes, size) = (record.as_ptr(), record.len());
    // SAFETY: the three slices are valid for their lengths, and a &mut overlaps nothing.
    let a = unsafe {
        let (trainer, staying, margin) = (true, true, f64::NAN);
        ffi::uttt_book_add(
            trainer, at, length, count, bytes, size, words, number, rule, limit, budget, interval, staying, margin,
        )
    };
    (a.code, a.index, a.verdict, a.count)
}

/// The places of the bits, from 0, in which two buffers differ.
fn changed(before: &[u8], after: &[u8]) -> Vec<usize> {
    assert_eq!(before.len(), after.len());
    (0..8 * before.len()).filter(|bit| (before[bit / 8] ^ after[bit / 8]) & 0x80 >> (bit % 8) != 0).collect()
}

/// Wherever the entry stands and whatever its ignored bits, its last bit is set, and no other bit of the memory.
#[test]
fn one_bit_is_set() {
    for at in 0..4 {
        for low in 0..16 {
            let mut memory = vec![FILL; 6 * ENTRY_BYTES];
            let pair = with_low(entry(&w(), Rule::DrawTrue, FALSE), low);
            memory[(at + 1) * ENTRY_BYTES..][..ENTRY_BYTES].copy_from_slice(&pair);
            let before = memory.clone();
            let book = &mut memory[ENTRY_BYTES..5 * ENTRY_BYTES];
            assert_eq!(publish_in(Arbiter, book, 4, &w(), Rule::DrawTrue), Ok(true));
            let last = 8 * (at + 2) * ENTRY_BYTES - 1;
            assert_eq!(changed(&before, &memory), if low & MARK == 0 { vec![last] } else { vec![] });
        }
    }
}

/// Of several entries of a pair the first is marked, and a second publish changes nothing.
#[test]
fn published_twice() {
    let others = [entry(&w(), Rule::DrawTrue, TRUE), entry(&E, Rule::DrawFalse, TRUE)];
    let pair = [entry(&w(), Rule::DrawFalse, FALSE), entry(&w(), Rule::DrawFalse, TRUE)];
    let mut book = used(&[&others[..], &pair[..]].concat());
    let before = book.bytes().to_vec();
    for _ in 0..2 {
        assert!(publish(&mut book, &w(), Rule::DrawFalse));
        assert_eq!(changed(&before, book.bytes()), [8 * 3 * ENTRY_BYTES - 1]);
        assert_eq!((book.count(), seen(&book, &w(), Rule::DrawFalse)), (4, Some(false)));
    }
}

/// Entries of the record under other rules, of other records, without a verdict and past the count don't hold the pair.
#[test]
fn a_pair_not_held() {
    let entries = [
        entry(&w(), Rule::DrawTrue, TRUE),
        published(&w(), Rule::DrawLostByMover, TRUE),
        entry(&d(FREE_CHOICE), Rule::DrawFalse, TRUE),
        entry(&w(), Rule::DrawFalse, 0),
        entry(&w(), Rule::DrawFalse, 3),
        entry(&w(), Rule::DrawFalse, TRUE),
    ];
    for count in 0..6 {
        let mut book = Book::from_bytes(entries.concat(), count);
        assert!(!publish(&mut book, &w(), Rule::DrawFalse));
        assert_eq!((book.count(), book.bytes()), (count, &entries.concat()[..]));
    }
    assert!(publish(&mut used(&entries), &w(), Rule::DrawFalse));
    assert!(!publish(&mut Book::new(0), &w(), Rule::DrawFalse));
}

/// The record, then the rule, then the book: for an arbiter's publish, and for a lookup, whoever calls.
#[test]
fn order_of_the_checks() {
    let held = RULES.map(|rule| entry(&w(), rule, TRUE)).concat();
    let broken = [(&held[..65], 0), (&held[..45], 1), (&held[..], 4), (&held[..0], 1), (&held[..], u64::MAX)];
    for (bytes, count) in broken {
        let mut book = bytes.to_vec();
        let mut refused = |record: &[u8], rule: u64, code: u32| {
            assert_eq!(publish_raw(false, &mut book, count, record, rule), (code, 0, 0));
            assert_eq!([false, true].map(|who| lookup_raw(who, &book, count, record, rule)), [(code, 0, 0); 2]);
            assert_eq!(book, bytes);
        };
        for (record, code) in &refused_records() {
            refused(record, 3, *code);
        }
        refused(&w(), 3, 10);
        refused(&w(), u64::MAX, 10);
        refused(&w(), 2, 17);
    }
}

/// In a book in which nothing else is wrong, a rule over 2 is refused; its low bits don't make it another.
#[test]
fn rules_out_of_range() {
    let marked = RULES.map(|rule| published(&w(), rule, TRUE)).concat();
    let unmarked = RULES.map(|rule| entry(&w(), rule, TRUE)).concat();
    for rule in [3, 4, 5, 1 << 32, u64::MAX] {
        let mut book = unmarked.clone();
        assert_eq!(publish_raw(false, &mut book, 3, &w(), rule), (10, 0, 0));
        assert_eq!(book, unmarked);
        assert_eq!([false, true].map(|who| lookup_raw(who, &marked, 3, &w(), rule)), [(10, 0, 0); 2]);
    }
    assert_eq!(publish_raw(false, &mut unmarked.clone(), 3, &w(), 2), (0, 0, 1));
    assert_eq!(lookup_raw(true, &marked, 3, &w(), 2), (0, 0, 1));
}

/// Whatever else is wrong, a trainer who adds or publishes is told 19; book, count and pool stay as they were.
#[test]
fn a_trainer_who_writes() {
    let held = entry(&w(), Rule::DrawFalse, TRUE);
    let books = [(22, 1), (22, 0), (0, 0), (21, 0), (22, 2), (22, u64::MAX)];
    let bounds = [(0, 10, 10), (4, 10, 0), (250, 10, 10), (250, u64::MAX, 10), (250, 10, 0)];
    let records = refused_records().map(|(record, _)| record).into_iter().chain([w().to_vec(), E.to_vec()]);
    for (record, (length, count)) in records.flat_map(|record| books.map(|book| (record.clone(), book))) {
        let mut book = held[..length].to_vec();
        for rule in [0, 1, 3, u64::MAX] {
            assert_eq!(publish_raw(true, &mut book, count, &record, rule), (19, 0, 0));
            for (words, budget, interval) in bounds {
                let mut pool = vec![0xA5A5_A5A5; words];
                let settings = [rule, u64::MAX, budget, interval];
                assert_eq!(trainers_add(&mut book, count, &record, &mut pool, settings), (19, 0, 0, count));
                assert!(pool.iter().all(|word| *word == 0xA5A5_A5A5));
            }
        }
        assert_eq!(book, held[..length]);
    }
}

/// The wrapper hands the caller on: what is refused for a trainer is answered for an arbiter.
#[test]
fn the_caller_is_handed_on() {
    let mut book = used(&[entry(&w(), Rule::DrawFalse, TRUE)]);
    assert_eq!(book.publish(Trainer, &w(), Rule::DrawFalse).unwrap_err().number(), 19);
    assert_eq!(seen(&book, &w(), Rule::DrawFalse), None);
    assert_eq!(book.publish(Arbiter, &w(), Rule::DrawFalse), Ok(true));
    assert_eq!(seen(&book, &w(), Rule::DrawFalse), Some(true));
}
