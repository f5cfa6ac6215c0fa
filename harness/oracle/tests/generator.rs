//! The generator repeats itself, reaches every kind of answer, and what it makes loads and stores.

use calls::games::MOST_GAMES;
use calls::{table, Answer, Book, Call, Kind};
use oracle::game::GameState;
use oracle::generate::{any_list, call, list, Random};
use oracle::{ending, load, opening, Ending};
use std::collections::{BTreeMap, BTreeSet};

#[test]
fn one_seed_gives_one_list() {
    let lists = |seed| {
        let mut random = Random::new(seed);
        (0..300).map(|i| list(&mut random, Kind::ALL[i % Kind::ALL.len()])).collect::<Vec<Vec<Call>>>()
    };
    assert_eq!(lists(5), lists(5));
    assert_ne!(lists(5), lists(6));
}

/// A book's list has many lines, so it is drawn less often.
#[test]
fn about_as_many_lines_of_each_kind_come() {
    let mut random = Random::new(1);
    let mut lines: BTreeMap<&str, usize> = BTreeMap::new();
    for list in (0..23_600).map(|_| any_list(&mut random, &Kind::ALL)) {
        *lines.entry(list[0].kind().name()).or_default() += list.len();
    }
    assert!(lines.len() == Kind::ALL.len() && lines.values().all(|n| (2_500..3_500).contains(n)), "{:?}", lines);
}

/// Refusal 20 where it is not for the number of games: their shares sum above the allowance.
const SHARES: u64 = 50;

/// Refusals by number, but for the shares as `SHARES`; results as 0, searches by cause as 30 and up, full verdicts as 40
/// and up.
fn outcomes(kind: Kind) -> BTreeSet<u64> {
    let mut random = Random::new(1);
    let outcome = |call: Call| match (oracle::answer(&call, &mut Book::default()), call) {
        (Answer::Refused { number: 20, .. }, Call::Games(games)) if (1..=MOST_GAMES).contains(&games.count()) => SHARES,
        (Answer::Refused { number, .. }, _) => number as u64,
        (Answer::Search(fields), _) => 30 + fields.cause,
        (Answer::Full(verdict, ..), _) => 40 + verdict as u64,
        _ => 0,
    };
    (0..4_000).map(|_| outcome(call(&mut random, kind))).collect()
}

#[test]
fn every_outcome_is_reached() {
    assert_eq!(outcomes(Kind::Moves), (0..=7).chain([22]).collect());
    assert_eq!(outcomes(Kind::Replay), (0..=7).chain(11..=15).chain([22]).collect());
    assert_eq!(outcomes(Kind::Search), (1..=6).chain(8..=10).chain([21, 22]).chain(30..=33).collect());
    assert_eq!(outcomes(Kind::Full), (1..=6).chain(8..=10).chain([21, 22]).chain(40..=45).collect());
    assert_eq!(outcomes(Kind::Referee), (0..=6).chain([10, 16, 22]).collect());
    assert_eq!(outcomes(Kind::Sheets), [0, 7].into());
    assert_eq!(outcomes(Kind::Games), (0..=6).chain([8, 9, 10, 20, 21, 22, SHARES]).collect());
    assert_eq!(outcomes(Kind::Simulate), (0..=6).chain([8, 9, 10, 21, 22, 23]).collect());
}

/// How many openings of a hundred end in each way, at least; moves after the game's end come after won and
/// after drawn games.
#[test]
fn openings_end_in_every_way() {
    let few = (11..=15).map(|number| (Ending::Error(number), 2));
    let many = [(Ending::BothEnd, 15), (Ending::FirstEnds, 7), (Ending::SecondEnds, 7), (Ending::Difference, 35)];
    let due: BTreeMap<Ending, u64> = many.into_iter().chain(few).collect();
    let mut random = Random::new(1);
    let mut seen: BTreeMap<Ending, u64> = BTreeMap::new();
    let mut drawn = BTreeSet::new();
    for _ in 0..4_000 {
        let Call::Sheets { first, second, .. } = call(&mut random, Kind::Sheets) else { unreachable!() };
        let ending = ending(&first, &second);
        *seen.entry(ending).or_default() += 1;
        if ending == Ending::Error(12) {
            drawn.insert(opening(&first, &second).1.game_state() == GameState::Drawn);
        }
    }
    let often = |(ending, least): (&Ending, &u64)| seen.get(ending).is_some_and(|times| *times >= 40 * least);
    assert!(due.iter().all(often), "{:?}", seen);
    assert_eq!(drawn, [false, true].into());
}

/// An accepted record loads and is stored as the same bytes; after each move of a replay the
/// position that play gives is the one that its record loads, in every field.
#[test]
fn loading_is_what_play_gives() {
    let mut random = Random::new(2);
    for _ in 0..2_000 {
        let Call::Replay { record, moves, .. } = call(&mut random, Kind::Replay) else { unreachable!() };
        if table::record_refusal(&record).is_some() {
            continue;
        }
        let bytes = record.as_slice().try_into().expect("accepted");
        let mut game = load::game(bytes);
        assert_eq!(load::record(&game), *bytes);
        for byte in moves {
            let Ok(after) = game.make_move(oracle::move_of(byte)) else { break };
            assert_eq!(load::game(&load::record(&after)), after);
            game = after;
        }
    }
}
