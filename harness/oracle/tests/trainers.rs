//! Callers and marks: a trainer sees published entries alone, and the generator's lists try what is easily done wrong.

mod steps;

use calls::book::{ENTRY, MARK};
use calls::line::Verdict;
use calls::record::LENGTH;
use calls::{table, Answer, Book, BookCall, Who};
use std::collections::BTreeMap;
use steps::{steps, Step};

/// What a line tries, and whether it does.
type Tried = Vec<(&'static str, bool)>;

/// The used entries that are published, as a book of their own.
fn published(book: &Book) -> Book {
    let used = book.bytes.chunks(ENTRY).take(book.count as usize);
    let bytes: Vec<u8> = used.filter(|entry| entry[LENGTH] & MARK != 0).flatten().copied().collect();
    Book { count: (bytes.len() / ENTRY) as u64, bytes }
}

/// A trainer finds what an arbiter would find if there were no other entries.
#[test]
fn a_trainer_learns_of_published_entries_alone() {
    let mut asked = 0;
    for Step { line, before, answer, .. } in steps(2_000) {
        if let (BookCall::Lookup { who: Who::Trainer, record, rule }, Answer::Found(found)) = (line, answer) {
            assert_eq!(published(&before).held(Who::Arbiter, &record, rule), found);
            asked += 1;
        }
    }
    assert!(asked > 3_000, "only {} lookups", asked);
}

/// Each is tried by more than a hundred lines of 4,000 lists.
#[test]
fn callers_and_marks_are_tried() {
    let mut seen: BTreeMap<&str, usize> = BTreeMap::new();
    for (what, holds) in steps(4_000).flat_map(|step| tried(&step)) {
        *seen.entry(what).or_default() += usize::from(holds);
    }
    assert!(seen.len() == 17 && seen.values().all(|times| *times > 100), "{:#?}", seen);
}

fn tried(step: &Step) -> Tried {
    match (&step.line, &step.answer) {
        (BookCall::Lookup { who: Who::Trainer, record, rule }, Answer::Found(found)) => {
            looked_up(&step.before, record, *rule, *found)
        }
        (BookCall::Publish { record, rule, .. }, Answer::Published(held)) => {
            let mut tried = sought(&step.before, record, *rule, *held);
            tried.extend([
                ("publish sets a mark", *held && step.after != step.before),
                ("publish finds its mark set", *held && step.after == step.before),
            ]);
            tried
        }
        (BookCall::Add { who: Who::Trainer, record, .. }, _) => stopped(
            ["a trainer adds", "a trainer adds a wrong record", "a trainer adds to a broken book"],
            &step.before,
            record,
        ),
        (BookCall::Publish { who: Who::Trainer, record, .. }, _) => stopped(
            ["a trainer publishes", "a trainer publishes a wrong record", "a trainer publishes in a broken book"],
            &step.before,
            record,
        ),
        _ => vec![],
    }
}

/// A trainer's lookup.
fn looked_up(book: &Book, record: &[u8], rule: u64, found: Option<Verdict>) -> Tried {
    let by_an_arbiter = book.held(Who::Arbiter, record, rule);
    let other = found.is_some() && found != by_an_arbiter;
    let past = Book { count: book.entries(), ..book.clone() }.held(Who::Trainer, record, rule);
    let last = last_bytes(book, record, rule);
    vec![
        ("a trainer finds the verdict that an arbiter does", found.is_some() && !other),
        ("a trainer finds the other verdict, behind an unpublished one", other),
        ("a trainer finds nothing where an arbiter does", found.is_none() && by_an_arbiter.is_some()),
        ("a trainer finds nothing, for it is past the count", found.is_none() && past.is_some()),
        ("the pair has a mark without a verdict", last.iter().any(|byte| matches!(byte & 0x31, 0x01 | 0x31))),
    ]
}

/// A publish by an arbiter.
fn sought(book: &Book, record: &[u8], rule: u64, held: bool) -> Tried {
    let last = last_bytes(book, record, rule);
    let with_verdict = last.iter().filter(|byte| matches!(*byte & 0x30, 0x10 | 0x20)).count();
    let past = Book { count: book.entries(), ..book.clone() }.held(Who::Arbiter, record, rule);
    vec![
        ("publish has entries to choose from", with_verdict > 1),
        ("publish leaves bits that nobody looks at", held && last.iter().any(|byte| byte & 0x0E != 0)),
        ("publish finds entries without a verdict alone", !held && !last.is_empty()),
        ("publish finds nothing, for it is past the count", !held && past.is_some()),
    ]
}

/// The last bytes of the used entries of a pair.
fn last_bytes(book: &Book, record: &[u8], rule: u64) -> Vec<u8> {
    let used = book.bytes.chunks(ENTRY).take(book.count as usize);
    let of_record = used.filter(|entry| entry[..LENGTH] == *record).map(|entry| entry[LENGTH]);
    of_record.filter(|byte| u64::from(byte / 64) == rule).collect()
}

/// What check 19 stops: with nothing else wrong, with a wrong record, and in a broken book.
fn stopped(names: [&'static str; 3], book: &Book, record: &[u8]) -> Tried {
    let (wrong, broken) = (table::record_refusal(record).is_some(), book.is_broken());
    names.into_iter().zip([!wrong && !broken, wrong, broken]).collect()
}
