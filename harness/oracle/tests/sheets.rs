//! The agreed opening of two sheets, as the oracle has it, against its definition (MANUAL, Calls).

use calls::{Call, Kind, Position};
use oracle::game::Game;
use oracle::generate::{call, Random};
use oracle::{ending, load, opening, replay, Ending};
use std::collections::BTreeSet;

fn sheets(call: Call) -> Option<(Vec<u8>, Vec<u8>)> {
    match call {
        Call::Sheets { first, second, .. } => Some((first, second)),
        _ => None,
    }
}

#[test]
fn the_originals_first_position_is_the_empty_game() {
    let record = load::record(&Game::new());
    assert_eq!(record, Position::start().write());
    assert_eq!(load::game(&record), Game::new());
}

/// Of all beginnings of both lists that replay without an error the opening is the longest, and the
/// position after it is the one that replay gives.
#[test]
fn no_longer_beginning_replays() {
    let start = Position::start().write();
    let mut random = Random::new(3);
    for _ in 0..2_000 {
        let (first, second) = sheets(call(&mut random, Kind::Sheets)).expect("a call of two sheets");
        let common = (0..=first.len()).filter(|n| second.get(..*n) == Some(&first[..*n]));
        let mut played = common.filter_map(|n| replay(&start, &first[..n]).ok().map(|record| (n, record)));
        let (count, game) = opening(&first, &second);
        assert_eq!(played.next_back(), Some((count, load::record(&game))), "{:02X?} and {:02X?}", first, second);
    }
}

#[test]
fn cases_have_every_ending() {
    let seen: BTreeSet<Ending> = oracle::cases::calls().filter_map(sheets).map(|(f, s)| ending(&f, &s)).collect();
    let all = [Ending::BothEnd, Ending::FirstEnds, Ending::SecondEnds, Ending::Difference];
    assert_eq!(seen, all.into_iter().chain((11..=15).map(Ending::Error)).collect());
}
