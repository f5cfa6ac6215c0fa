//! A book's entries, its lines and its refusals, on small inputs.

use calls::book::{entry, ENTRY};
use calls::line::{self, Verdict};
use calls::{table, Answer, Book, BookCall, Position, Stay, Who};

fn start() -> Vec<u8> {
    Position::start().write().to_vec()
}

/// A book of these entries of the empty game's record (rule, verdict bits, last four bits), so many of them used.
fn book(entries: &[(u64, u8, u8)], count: u64) -> Book {
    let bytes = entries.iter().flat_map(|(rule, verdict, low)| entry(&start(), *rule, *verdict, *low));
    Book { bytes: bytes.collect(), count }
}

#[test]
fn an_entry_is_a_record_and_a_byte() {
    let bytes = entry(&start(), 2, Verdict::False as u8, 0);
    assert_eq!((bytes.len(), bytes[0], bytes[21]), (ENTRY, 0x78, 0xA0));
    assert_eq!(entry(&start(), 1, Verdict::True as u8, 0)[21], 0x50);
}

#[test]
fn the_first_used_entry_with_a_verdict_is_held() {
    let held = |entries: &[(u64, u8, u8)], count, rule| book(entries, count).held(Who::Arbiter, &start(), rule);
    assert_eq!(held(&[(1, 1, 0)], 1, 1), Some(Verdict::True));
    assert_eq!(held(&[(1, 1, 0)], 1, 2), None);
    assert_eq!(held(&[(1, 1, 0)], 0, 1), None);
    assert_eq!(held(&[(0, 2, 15), (0, 1, 0)], 2, 0), Some(Verdict::False));
    assert_eq!(held(&[(0, 0, 0), (0, 3, 0), (0, 1, 9)], 3, 0), Some(Verdict::True));
    assert_eq!(held(&[(0, 0, 0), (0, 3, 0), (0, 1, 9)], 2, 0), None);
    assert_eq!(book(&[(0, 1, 0)], 1).held(Who::Arbiter, &start()[..20], 0), None);
}

#[test]
fn a_trainer_finds_the_first_that_is_published() {
    let held = |entries: &[(u64, u8, u8)], count, rule| book(entries, count).held(Who::Trainer, &start(), rule);
    assert_eq!(held(&[(1, 1, 14)], 1, 1), None);
    assert_eq!(held(&[(1, 1, 1)], 1, 1), Some(Verdict::True));
    assert_eq!(held(&[(1, 1, 1)], 0, 1), None);
    assert_eq!(held(&[(1, 1, 1)], 1, 0), None);
    assert_eq!(held(&[(0, 2, 0), (0, 1, 15), (0, 2, 1)], 3, 0), Some(Verdict::True));
    assert_eq!(held(&[(0, 0, 1), (0, 3, 1), (0, 1, 2)], 3, 0), None);
}

/// The entry that an arbiter finds is marked, and no other bit changes.
#[test]
fn the_first_held_entry_is_published() {
    let published = |entries: &[(u64, u8, u8)], count, rule| {
        let mut book = book(entries, count);
        let held = book.publish(&start(), rule);
        (held, book)
    };
    let entries = [(1, 1, 0), (0, 3, 0), (0, 2, 6), (0, 1, 0), (2, 1, 0)];
    let marked = [(1, 1, 0), (0, 3, 0), (0, 2, 7), (0, 1, 0), (2, 1, 0)];
    assert_eq!(published(&entries, 4, 0), (true, book(&marked, 4)));
    assert_eq!(published(&marked, 4, 0), (true, book(&marked, 4)));
    assert_eq!(published(&entries, 2, 0), (false, book(&entries, 2)));
    assert_eq!(published(&entries, 4, 2), (false, book(&entries, 4)));
}

#[test]
fn only_the_entry_at_the_count_is_stored() {
    let mut book = Book { bytes: vec![0xFF; 3 * ENTRY], count: 1 };
    book.store(&start(), 2, Verdict::Unknown);
    assert_eq!(book, Book { bytes: vec![0xFF; 3 * ENTRY], count: 1 });
    book.store(&start(), 2, Verdict::True);
    let due = [vec![0xFF; ENTRY], entry(&start(), 2, 1, 0), vec![0xFF; ENTRY]].concat();
    assert_eq!(book, Book { bytes: due, count: 2 });
    book.store(&start(), 2, Verdict::True);
    let full = book.clone();
    book.store(&start(), 1, Verdict::True);
    assert_eq!((book.count, book), (3, full));
}

#[test]
fn a_broken_book_is_refused_after_the_record_and_the_rule() {
    let broken = |length, count| Book { bytes: vec![0; length], count }.is_broken();
    assert_eq!(
        [0, 1, 21, 22, 23, 43, 44].map(|length| broken(length, 0)),
        [false, true, true, false, true, true, false]
    );
    assert_eq!([0, 1, 2, u64::MAX].map(|count| broken(22, count)), [false, false, true, true]);
    let book = Book { bytes: vec![0; 21], count: 0 };
    assert_eq!(table::lookup_refusal(&book, &start()[1..], 3), Some(1));
    assert_eq!(table::lookup_refusal(&book, &start(), 3), Some(10));
    assert_eq!(table::lookup_refusal(&book, &start(), 2), Some(17));
    let add = |record: &[u8], rule, pool, interval| {
        table::add_refusal(&book, Who::Arbiter, record, rule, [pool, 0, interval], Stay::Off)
    };
    assert_eq!(add(&start()[1..], 3, 0, 0), Some(1));
    assert_eq!(add(&start(), 3, 0, 0), Some(8));
    assert_eq!(add(&start(), 3, 1, 1), Some(10));
    assert_eq!(add(&start(), 2, 1, 1), Some(17));
}

#[test]
fn a_full_book_refuses_what_it_does_not_hold() {
    let add = |book: &Book, rule| table::add_refusal(book, Who::Arbiter, &start(), rule, [1, 0, 1], Stay::Off);
    let full = book(&[(1, 2, 0)], 1);
    assert_eq!([0, 1, 2].map(|rule| add(&full, rule)), [Some(18), None, Some(18)]);
    assert_eq!(add(&Book::default(), 1), Some(18));
    assert_eq!(add(&book(&[(1, 2, 0)], 0), 0), None);
}

/// A trainer's add and publish are refused ahead of all else; an arbiter's publish has a lookup's checks.
#[test]
fn a_trainer_only_looks_up() {
    let (broken, held) = (Book { bytes: vec![0; 21], count: 0 }, book(&[(1, 2, 1)], 1));
    let publish = |book: &Book, who, record: &[u8], rule| table::publish_refusal(book, who, record, rule);
    let add = |book: &Book, record: &[u8], rule, limits| {
        table::add_refusal(book, Who::Trainer, record, rule, limits, Stay::Off)
    };
    for book in [&broken, &held] {
        assert_eq!(add(book, &start()[1..], 3, [0, u64::MAX, 0]), Some(19));
        assert_eq!(add(book, &start(), 1, [1, 0, 1]), Some(19));
        assert_eq!(publish(book, Who::Trainer, &start()[1..], 3), Some(19));
        assert_eq!(publish(book, Who::Trainer, &start(), 1), Some(19));
        for (record, rule) in [(&start()[1..], 3), (&start(), 3), (&start(), 1)] {
            assert_eq!(publish(book, Who::Arbiter, record, rule), table::lookup_refusal(book, record, rule));
        }
    }
}

#[test]
fn lines_are_read_and_printed() {
    for text in [
        "book new 0",
        "book new 45454",
        "book set - 18446744073709551615",
        "book set 0102 3",
        "book dump",
        "book add arbiter 00 0 1 18446744073709551615 3 4",
        "book add trainer - 3 0 0 0 0",
        "book lookup arbiter - 2",
        "book lookup trainer 00 2",
        "book publish arbiter 00 1",
        "book publish trainer - 18446744073709551615",
    ] {
        assert_eq!(line::parse(text).expect(text).to_string(), text);
    }
}

#[test]
fn wrong_lines_are_told() {
    let wrong = [
        "book new",
        "book new 45455",
        "book new 1 0",
        "book set 00",
        "book set 0 0",
        "book set 00 18446744073709551616",
        "book dump 0",
        "book old",
        "book add arbiter 00 0 1 2 3",
        "book add 00 0 1 2 3 4",
        "book lookup arbiter 00",
        "book lookup 00 0",
        "book publish arbiter 00",
        "book publish arbiter 00 0 1",
        "book publish 00 0",
    ];
    for text in wrong {
        assert!(line::parse(text).is_err(), "{:?}", text);
    }
    let message = line::parse("book old").expect_err("no line begins so");
    assert!(message.starts_with("book takes new ENTRIES, set BYTES COUNT, dump, add WHO RECORD"), "{:?}", message);
}

#[test]
fn the_tool_sets_its_book_and_shows_it() {
    let mut book = Book::default();
    let mut line = |text: &str| match line::parse(text) {
        Ok(calls::Call::Book(call)) => call.by_the_tool(&mut book).map(|answer| answer.to_string()),
        _ => panic!("{:?} is a book's line", text),
    };
    assert_eq!(line("book dump").as_deref(), Some("0 -"));
    assert_eq!(line("book new 1").as_deref(), Some("ok"));
    assert_eq!(line("book dump"), Some(format!("0 {}", "00".repeat(22))));
    assert_eq!(line("book set 0aFF 7").as_deref(), Some("ok"));
    for call in ["book lookup arbiter - 0", "book add trainer - 0 0 0 0 0", "book publish arbiter - 0"] {
        assert_eq!(line(call), None);
    }
    assert_eq!(line("book dump").as_deref(), Some("7 0AFF"));
}

#[test]
fn answers_are_printed() {
    assert_eq!(Answer::Added { verdict: Verdict::Unknown, count: 3 }.to_string(), "Unknown 3");
    assert_eq!(Answer::Found(Some(Verdict::False)).to_string(), "False");
    assert_eq!(Answer::Found(None).to_string(), "notheld");
    assert_eq!([true, false].map(|held| Answer::Published(held).to_string()), ["published", "notheld"]);
}

#[test]
fn who_calls_is_an_arbiter_or_a_trainer() {
    for text in ["book add umpire 00 0 1 2 3 4", "book lookup umpire 00 0", "book publish umpire 00 0"] {
        assert_eq!(line::parse(text), Err("WHO is arbiter or trainer, not \"umpire\"".to_string()));
    }
    let lookup = BookCall::Lookup { who: Who::Trainer, record: vec![0], rule: 0 };
    assert_eq!(line::parse("book lookup trainer 00 0"), Ok(calls::Call::Book(lookup)));
    let publish = BookCall::Publish { who: Who::Arbiter, record: vec![0], rule: 0 };
    assert_eq!(line::parse("book publish arbiter 00 0"), Ok(calls::Call::Book(publish)));
}
