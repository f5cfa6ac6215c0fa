//! The generator tries check 22: free choice with no board done, and with one done board, next to which the choice is
//! free. No legal move leads to a record that it refuses.

mod steps;

use calls::book::ENTRY;
use calls::record::{Position, EMPTY, FREE_CHOICE, LENGTH};
use calls::table::{board_state, impossible_choice, record_refusal, refusal_to_6, Board};
use calls::{Answer, Book, Call, Kind};
use oracle::generate::{call, choices, reached, Random};
use oracle::load;
use std::collections::{BTreeMap, BTreeSet};
use steps::{steps, Step};

fn position(record: &[u8]) -> Option<Position> {
    Some(Position::read(record.try_into().ok()?))
}

fn done(position: &Position) -> Vec<Board> {
    position.cells.iter().map(board_state).filter(|state| *state != Board::InPlay).collect()
}

/// What a record tries of check 22, if anything.
fn tried(record: &[u8]) -> Option<&'static str> {
    let position = position(record)?;
    let (free, taken) = (position.target == FREE_CHOICE, 81 - position.count(EMPTY));
    match (refusal_to_6(record), done(&position).as_slice()) {
        (None, []) if free && taken == 0 => Some("the empty game"),
        (None, []) if free && taken == 1 => Some("refused, one cell taken"),
        (None, []) if free && taken > 40 => Some("refused, over 40 cells taken"),
        (None, []) if free => Some("refused"),
        (None, []) if taken > 0 => Some("a board, none done"),
        (None, [Board::Drawn]) if free => Some("one drawn"),
        (None, [Board::Won(_)]) if free => Some("one won"),
        (Some(2), _) if impossible_choice(&position) => Some("2 comes first"),
        (Some(3), _) if impossible_choice(&position) => Some("3 comes first"),
        _ => None,
    }
}

/// Those that each kind of call tries; the others are tried by some.
const BY_EACH: [&str; 5] = ["the empty game", "refused", "a board, none done", "one drawn", "one won"];

/// The records of a call.
fn records(call: &Call) -> Vec<&[u8]> {
    match call {
        Call::Moves { record, .. }
        | Call::Replay { record, .. }
        | Call::Search { record, .. }
        | Call::Full { record, .. }
        | Call::Referee { record, .. } => vec![record],
        Call::Games(games) => games.records.chunks(LENGTH).collect(),
        Call::Simulate(call) => vec![&call.record],
        Call::Sheets { .. } | Call::Book(_) => vec![],
    }
}

#[test]
fn every_side_of_the_check_is_tried() {
    let mut all: BTreeMap<&str, usize> = BTreeMap::new();
    for kind in [Kind::Moves, Kind::Replay, Kind::Search, Kind::Full, Kind::Referee, Kind::Games, Kind::Simulate] {
        let mut random = Random::new(1);
        let mut seen: BTreeMap<&str, usize> = BTreeMap::new();
        for call in (0..4_000).map(|_| call(&mut random, kind)) {
            records(&call).into_iter().filter_map(tried).for_each(|what| *seen.entry(what).or_default() += 1);
        }
        assert!(BY_EACH.iter().all(|what| seen.get(what).is_some_and(|n| *n > 1)), "{}: {:?}", kind.name(), seen);
        seen.into_iter().for_each(|(what, times)| *all.entry(what).or_default() += times);
    }
    assert!(all.len() == 9 && all.values().all(|times| *times > 10), "{:?}", all);
}

/// Lookups, adds and publishes name such a record where a used entry has it, and where none has.
#[test]
fn books_hold_such_records() {
    let mut seen: BTreeMap<(String, bool), usize> = BTreeMap::new();
    let mut full = 0;
    for Step { line, before, answer, after } in steps(2_000) {
        let used = before.bytes.chunks_exact(ENTRY).take(before.count as usize);
        let of_choice = |entry: &&[u8]| record_refusal(&entry[..LENGTH]) == Some(22);
        full += usize::from(answer == Answer::refused(18) && used.clone().any(|entry| of_choice(&entry)));
        if let (Some((_, record, _)), Answer::Refused { number: 22, .. }) = (line.asked(), &answer) {
            *seen.entry((line.name(), used.clone().any(|entry| entry[..LENGTH] == *record))).or_default() += 1;
            assert_eq!(after, before, "{}", line);
        }
    }
    let names: Vec<&str> = seen.keys().map(|(name, _)| name.as_str()).collect();
    let due = ["add arbiter", "lookup arbiter", "lookup trainer", "publish arbiter"];
    assert_eq!(names, due.iter().flat_map(|name| [*name; 2]).collect::<Vec<&str>>());
    assert!(seen.values().all(|times| *times > 20) && full > 10, "{:?}, {} full books", seen, full);
}

#[test]
fn play_leads_to_no_such_record() {
    let mut random = Random::new(1);
    for _ in 0..2_000 {
        let plies = random.below(82);
        assert_eq!(record_refusal(&load::record(&reached(&mut random, plies))), None);
    }
    for _ in 0..4_000 {
        let replay = call(&mut random, Kind::Replay);
        if let Answer::Record(after) = oracle::answer(&replay, &mut Default::default()) {
            assert_eq!(record_refusal(&after), None, "{}", replay);
        }
    }
}

/// The lists of free choice have each refusal of a record that 22 can stand beside, each later check, and answers.
#[test]
fn every_later_check_is_tried() {
    let lists = choices::lists(&mut Random::new(1));
    assert_eq!((lists.len(), lists.iter().flatten().count()), (1_978, 5_152));
    let mut seen: BTreeMap<&str, BTreeSet<u32>> = BTreeMap::new();
    for list in &lists {
        let mut book = Book::default();
        for call in list {
            let code = match oracle::answer(call, &mut book) {
                Answer::Refused { number, .. } => number,
                _ => 0,
            };
            seen.entry(call.kind().name()).or_default().insert(code);
        }
    }
    let due: [(&str, &[u32]); 8] = [
        ("moves", &[7]),
        ("replay", &[7, 11]),
        ("search", &[8, 10, 21]),
        ("full", &[8, 10, 21]),
        ("referee", &[10, 16]),
        ("book", &[8, 10, 17, 18, 19, 21]),
        ("eight", &[6, 8, 10, 20, 21]),
        ("sim", &[8, 10, 21, 23]),
    ];
    let each = |(call, later): (&'static str, &[u32])| (call, [&[0, 2, 3, 22], later].concat().into_iter().collect());
    assert_eq!(seen, due.into_iter().map(each).collect());
}
