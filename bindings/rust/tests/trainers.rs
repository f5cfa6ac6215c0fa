//! What trainers learn of a book by calls (MANUAL, Book of verdicts): published entries, and nothing of the others.

mod common;

use common::book::{add, entry, found, publish, published, seen, used, with_low, FALSE, MARK, TRUE};
use common::{budget, d, pool, record, w, E, FREE_CHOICE, RULES};
use std::collections::HashSet;
use ultimattt::Caller::{Arbiter, Trainer};
use ultimattt::{Book, Caller, Record, Refusal, Rule, Verdict, ENTRY_BYTES};

/// W, D, E and K1 of the manual.
fn records() -> [Record; 4] {
    [w(), d(FREE_CHOICE), E, record("7C1495332CAC054B4AD4A20882D08450CB4C82D4AC")]
}

/// What the caller is answered for each of the records under each rule.
fn answers(who: Caller, book: &Book) -> Vec<Option<bool>> {
    let pairs = records().into_iter().flat_map(|record| RULES.map(|rule| (record, rule)));
    pairs.map(|(record, rule)| book.lookup(who, &record, rule).expect("an accepted lookup")).collect()
}

/// Published entries with a verdict: four pairs, one of them twice and contradicting itself.
fn shown() -> [Vec<u8>; 5] {
    let [w, d, e, _] = records();
    [
        published(&w, Rule::DrawFalse, FALSE),
        published(&d, Rule::DrawTrue, TRUE),
        published(&w, Rule::DrawFalse, TRUE),
        published(&e, Rule::DrawLostByMover, TRUE),
        published(&d, Rule::DrawFalse, FALSE),
    ]
}

/// What trainers are answered in a book of these, for each record its three rules.
const SHOWN: [Option<bool>; 12] = {
    let mut answers = [None; 12];
    (answers[1], answers[4], answers[5], answers[6]) = (Some(false), Some(false), Some(true), Some(true));
    answers
};

/// How many entries there are of these records that trainers must learn nothing of.
const HIDDEN: usize = 4 * 3 * 4 * 16;

/// One of them: with verdict 1 or 2 and unpublished, or without a verdict, whatever its low bits.
fn hidden(n: usize) -> Vec<u8> {
    let (verdict, low) = ((n / 12 % 4) as u8, (n / 48 % 16) as u8);
    let kept = if verdict == TRUE || verdict == FALSE { low & !MARK } else { low };
    with_low(entry(&records()[n % 4], RULES[n / 4 % 3], verdict), kept)
}

/// The n-th book with the shown entries: up to two hidden ones ahead of each, and past the count more published ones.
fn with_hidden(n: usize) -> Book {
    let mut entries = vec![];
    for (i, one) in shown().into_iter().enumerate() {
        let ahead = [hidden((n + 97 * i) % HIDDEN), hidden((n / 5 + 31 * i) % HIDDEN)];
        entries.extend_from_slice(&ahead[..(n + i) % 3]);
        entries.push(with_low(one, (n as u8) << 1 & 0x0E));
    }
    entries.push(hidden(n));
    let past = RULES.map(|rule| published(&records()[n % 4], rule, TRUE));
    Book::from_bytes([entries.concat(), past.concat()].concat(), entries.len())
}

/// Trainers are answered alike in all of these books; arbiters tell many of them apart.
#[test]
fn the_same_published_entries() {
    assert_eq!(answers(Trainer, &used(&shown())), SHOWN);
    let mut to_arbiters = HashSet::new();
    for n in 0..HIDDEN {
        let book = with_hidden(n);
        assert_eq!(answers(Trainer, &book), SHOWN, "book {n}");
        to_arbiters.insert(answers(Arbiter, &book));
    }
    assert!(to_arbiters.len() > 50, "{} kinds of book", to_arbiters.len());
}

/// Books of hidden entries alone are to trainers what an empty book is.
#[test]
fn nothing_published() {
    let all: Vec<Vec<u8>> = (0..HIDDEN).map(hidden).collect();
    let book = used(&all);
    assert_eq!(answers(Trainer, &book), [None; 12]);
    assert!(answers(Arbiter, &book).iter().all(Option::is_some));
    assert_eq!(answers(Trainer, &Book::new(0)), [None; 12]);
}

/// Arbiters read the first entry of a pair, trainers the first published one; publishing marks the arbiters' entry.
#[test]
fn an_unpublished_entry_ahead_of_a_published_one() {
    for (first, second, value) in [(TRUE, FALSE, true), (FALSE, TRUE, false)] {
        let pair = [entry(&w(), Rule::DrawFalse, first), published(&w(), Rule::DrawFalse, second)];
        let mut book = used(&pair);
        assert_eq!(found(&book, &w(), Rule::DrawFalse), Some(value));
        assert_eq!(seen(&book, &w(), Rule::DrawFalse), Some(!value));
        assert!(publish(&mut book, &w(), Rule::DrawFalse));
        assert_eq!(found(&book, &w(), Rule::DrawFalse), Some(value));
        assert_eq!(seen(&book, &w(), Rule::DrawFalse), Some(value));
        assert_eq!(book.bytes(), [published(&w(), Rule::DrawFalse, first), pair[1].clone()].concat());
    }
}

/// With verdict bits 0 or 3 a mark shows nothing and hides nothing, and such an entry isn't the one that is published.
#[test]
fn published_without_a_verdict() {
    for bits in [0, 3] {
        let none = published(&w(), Rule::DrawFalse, bits);
        let mut book = Book::from_bytes(none.clone(), 1);
        assert_eq!((found(&book, &w(), Rule::DrawFalse), seen(&book, &w(), Rule::DrawFalse)), (None, None));
        assert!(!publish(&mut book, &w(), Rule::DrawFalse));
        let unmarked = entry(&w(), Rule::DrawFalse, bits);
        let mut book = used(&[none.clone(), unmarked.clone(), entry(&w(), Rule::DrawFalse, FALSE)]);
        assert_eq!((found(&book, &w(), Rule::DrawFalse), seen(&book, &w(), Rule::DrawFalse)), (Some(false), None));
        assert!(publish(&mut book, &w(), Rule::DrawFalse));
        assert_eq!(seen(&book, &w(), Rule::DrawFalse), Some(false));
        assert_eq!(book.bytes(), [none, unmarked, published(&w(), Rule::DrawFalse, FALSE)].concat());
    }
}

/// Of six published entries trainers see as many as the count says, whatever the low bits.
#[test]
fn marks_past_the_count() {
    let pairs = [w(), d(FREE_CHOICE)].into_iter().flat_map(|record| RULES.map(|rule| (record, rule)));
    let pairs: Vec<(Record, Rule)> = pairs.collect();
    for low in (1..16).step_by(2) {
        let entries: Vec<Vec<u8>> = pairs.iter().map(|(r, rule)| with_low(entry(r, *rule, TRUE), low)).collect();
        for count in 0..=6 {
            let mut book = Book::from_bytes(entries.concat(), count);
            for (i, (record, rule)) in pairs.iter().enumerate() {
                assert_eq!(seen(&book, record, *rule), (i < count).then_some(true));
                assert_eq!(publish(&mut book, record, *rule), i < count);
            }
            assert_eq!((book.count(), book.into_bytes()), (count, entries.concat()));
        }
    }
}

/// What is added isn't seen until it is published, even where marks stood before.
#[test]
fn added_and_then_published() {
    let mut book = Book::from_bytes(vec![0xFF; 4 * ENTRY_BYTES], 0);
    let pairs = [(w(), RULES[1]), (d(FREE_CHOICE), RULES[0]), (d(FREE_CHOICE), RULES[1]), (d(FREE_CHOICE), RULES[2])];
    for (record, rule) in pairs {
        assert!(matches!(add(&mut book, &record, rule), Ok(Verdict::True | Verdict::False)));
        assert_eq!(answers(Trainer, &book), [None; 12]);
    }
    assert!(book.bytes().chunks(ENTRY_BYTES).all(|entry| entry[21] & 0x0F == 0));
    let mut due = vec![None; 12];
    for ((record, rule), (at, value)) in pairs.into_iter().zip([(1, true), (3, false), (4, false), (5, true)]) {
        assert!(publish(&mut book, &record, rule));
        due[at] = Some(value);
        assert_eq!(answers(Trainer, &book), due);
    }
    assert_eq!((answers(Arbiter, &book), book.count()), (due, 4));
}

/// An add answers a published pair from the book as it does any held pair, and leaves the mark.
#[test]
fn added_when_published() {
    let entries = [published(&w(), Rule::DrawFalse, FALSE)];
    let mut book = used(&entries);
    assert_eq!(book.add(Arbiter, &w(), &mut pool(1), Rule::DrawFalse, &budget(0)), Ok(Verdict::False));
    assert_eq!((book.count(), book.bytes()), (1, &entries[0][..]));
}

/// A trainer is told 19, be the pair held, published, neither, or the book full.
#[test]
fn a_trainer_learns_nothing_by_writing() {
    let pair = |low| with_low(entry(&w(), Rule::DrawFalse, TRUE), low);
    for entries in [vec![], vec![pair(0)], vec![pair(MARK)], vec![vec![0; ENTRY_BYTES]]] {
        for room in [0, 1] {
            let mut book = used(&entries);
            book.grow(room);
            let (before, count) = (book.bytes().to_vec(), book.count());
            let added = book.add(Trainer, &w(), &mut pool(50), Rule::DrawFalse, &budget(10));
            assert_eq!(added, Err(Refusal::TrainerWrites));
            assert_eq!(book.publish(Trainer, &w(), Rule::DrawFalse), Err(Refusal::TrainerWrites));
            assert_eq!((book.count(), book.bytes()), (count, &before[..]));
        }
    }
}
