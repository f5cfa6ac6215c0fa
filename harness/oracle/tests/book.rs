//! Lists of a book's lines: those of cases.txt and the generator's hold together, and reach every answer.

mod steps;

use calls::book::{ENTRY, MARK};
use calls::line::Verdict;
use calls::{table, Answer, Book, BookCall, Call, Kind, Stay, Who};
use oracle::generate::book;
use std::collections::{BTreeMap, BTreeSet};
use steps::{line, lists, steps, Step};

#[test]
fn every_list_begins_with_a_book_and_ends_with_its_bytes() {
    let cases = oracle::cases::lists().into_iter().filter(|list| list[0].kind() == Kind::Book);
    let of_cases: Vec<Vec<BookCall>> = cases.map(|list| list.into_iter().map(line).collect()).collect();
    assert!(of_cases.len() > 30, "only {} lists are among the cases", of_cases.len());
    for all in of_cases.into_iter().chain(lists(2_000)) {
        assert!(all[0].begins_a_list() && !all[1..].iter().any(|line| line.begins_a_list()), "{}", all[0]);
        assert_eq!(all.last(), Some(&BookCall::Dump));
        assert!((3..=30).contains(&all.len()), "{} lines", all.len());
    }
}

#[test]
fn no_book_is_larger_than_said() {
    let most = lists(4_000).filter_map(|list| match &list[0] {
        BookCall::New { entries } => Some(*entries as u64),
        BookCall::Set(book) => Some(book.entries()),
        _ => None,
    });
    let most = most.max().expect("there are lists");
    assert!((40..=book::MOST_ENTRIES as u64).contains(&most), "{}", most);
}

/// Each call with who calls and its answer, and how often it comes; of an add, whether it stored.
fn outcomes(count: usize) -> BTreeMap<String, usize> {
    let mut seen = BTreeMap::new();
    for Step { line, before, answer, .. } in steps(count) {
        let answer = match answer {
            Answer::Ok | Answer::Book(_) => continue,
            Answer::Refused { number, .. } => number.to_string(),
            Answer::Added { verdict, count } => format!("{:?} {}", verdict, count - before.count),
            answer => answer.to_string(),
        };
        *seen.entry(format!("{} {}", line.name(), answer)).or_default() += 1;
    }
    seen
}

#[test]
fn every_answer_is_reached() {
    let seen = outcomes(4_000);
    let of_record = ["1", "2", "3", "4", "5", "6", "22"];
    let added = ["8", "9", "10", "21", "17", "18", "True 1", "True 0", "False 1", "False 0", "Unknown 0"];
    let found = ["10", "17", "True", "False", "notheld"];
    let due: [(&str, &[&[&str]]); 6] = [
        ("add arbiter", &[&of_record, &added]),
        ("add trainer", &[&["19"]]),
        ("lookup arbiter", &[&of_record, &found]),
        ("lookup trainer", &[&of_record, &found]),
        ("publish arbiter", &[&of_record, &["10", "17", "published", "notheld"]]),
        ("publish trainer", &[&["19"]]),
    ];
    let each = |(call, answers): (&'static str, &[&[&'static str]])| {
        answers.concat().into_iter().map(move |answer| format!("{} {}", call, answer)).collect::<Vec<String>>()
    };
    let due: BTreeSet<String> = due.into_iter().flat_map(each).collect();
    assert_eq!(seen.keys().cloned().collect::<BTreeSet<String>>(), due, "{:?}", seen);
    let often = ["17", "18", "True 1", "True 0", "False 0"].map(|answer| format!("add arbiter {}", answer));
    assert!(often.iter().all(|what| seen[what] > 500), "{:?}", seen);
}

/// From an empty book every verdict once stored is found, and a verdict found is that of a search with ample bounds.
#[test]
fn what_is_stored_is_found() {
    let mut found = 0;
    for list in lists(1_600).filter(|list| matches!(list[0], BookCall::New { .. })) {
        let mut book = Book::default();
        let mut stored: Vec<(Vec<u8>, u64, Verdict)> = Vec::new();
        for line in list {
            let answer = oracle::answer(&Call::Book(line.clone()), &mut book);
            if let (BookCall::Add { record, rule, .. }, Answer::Added { verdict, .. }) = (line, answer) {
                stored.extend((verdict != Verdict::Unknown).then_some((record, rule, verdict)));
            }
            let is_held = |(record, rule, verdict): &(Vec<u8>, u64, Verdict)| {
                book.held(Who::Arbiter, record, *rule) == Some(*verdict)
            };
            assert!(stored.iter().all(is_held));
        }
        for (record, rule, verdict) in stored {
            let whole = record.as_slice().try_into().expect("an accepted record");
            assert_eq!(oracle::search(whole, rule, 1 << 20, u64::MAX, 1_000_000, 10_000, Stay::Off).verdict, verdict);
            found += 1;
        }
    }
    assert!(found > 1_000, "only {} verdicts were found", found);
}

/// Refused calls, lookups, held pairs and Unknown leave the book as it was; a publish sets one mark.
#[test]
fn only_a_stored_verdict_or_a_mark_changes_the_book() {
    for Step { line, before, answer, after } in steps(1_000) {
        match &line {
            BookCall::New { .. } | BookCall::Set(_) => (),
            BookCall::Add { who, record, rule, pool, budget, interval, stay, .. } => {
                let limits = [*pool, *budget, *interval];
                let refused = table::add_refusal(&before, *who, record, *rule, limits, *stay).is_some();
                let unknown = matches!(answer, Answer::Added { verdict: Verdict::Unknown, .. });
                let kept = refused || unknown || before.held(Who::Arbiter, record, *rule).is_some();
                assert_eq!(after == before, kept, "{}", line);
            }
            BookCall::Publish { record, rule, .. } if answer == Answer::Published(true) => {
                assert_eq!(after, marked(&before, record, *rule), "{}", line)
            }
            BookCall::Publish { .. } | BookCall::Lookup { .. } | BookCall::Dump => {
                assert_eq!(after, before, "{}", line)
            }
        }
    }
}

/// The book with a mark in the last entry of its shortest beginning that holds the pair.
fn marked(book: &Book, record: &[u8], rule: u64) -> Book {
    let holds = |count: &u64| Book { count: *count, ..book.clone() }.held(Who::Arbiter, record, rule).is_some();
    let count = (0..=book.count).find(holds).expect("the pair is held");
    let mut marked = book.clone();
    marked.bytes[ENTRY * count as usize - 1] |= MARK;
    marked
}
