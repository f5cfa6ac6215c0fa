//! Simulated players: what holds of every call, on the generator's; and that these try what is easily done wrong.

use calls::line::Verdict;
use calls::table::{simulate_refusal, LARGEST_BUDGET};
use calls::{Answer, Book, Call, Kind, Report, Simulation, Stay};
use oracle::generate::{call, Random};
use oracle::players::{played, played_by, Played, RULE};
use std::collections::BTreeMap;

/// Those of so many calls of the generator that no check refuses.
fn taken(count: usize) -> impl Iterator<Item = Simulation> {
    let mut random = Random::new(1);
    let generated = (0..count).map(move |_| match call(&mut random, Kind::Simulate) {
        Call::Simulate(call) => call,
        call => panic!("{} is another call", call),
    });
    generated.filter(|call| simulate_refusal(call).is_none())
}

/// The games by searches under another rule.
fn under(call: &Simulation, rule: u64) -> Played {
    let Simulation { pool, limit, interval, stay, .. } = *call;
    played_by(call, |record, budget| oracle::search(record, rule, pool, limit, budget, interval, stay))
}

/// How many searches a call had that end in each way: by cause, and as False.
fn endings(call: &Simulation) -> ([u64; 4], u64) {
    let Simulation { pool, limit, interval, stay, .. } = *call;
    let (mut causes, mut lost) = ([0; 4], 0);
    played_by(call, |record, budget| {
        let fields = oracle::search(record, RULE, pool, limit, budget, interval, stay);
        causes[fields.cause as usize] += 1;
        lost += u64::from(fields.verdict == Verdict::False);
        fields
    });
    (causes, lost)
}

#[test]
fn every_game_is_counted_once() {
    for call in taken(1_000) {
        let Played { report: Report { x_wins, o_wins, draws, expanded }, searches } = played(&call);
        assert_eq!(x_wins + o_wins + draws, call.games, "{}", call);
        assert!(expanded <= searches * call.budgets[0].max(call.budgets[1]), "{}", call);
        assert_eq!(searches == 0, call.is_finished(), "{}", call);
        let answer = oracle::answer(&Call::Simulate(call.clone()), &mut Book::default());
        assert_eq!(answer, Answer::Simulated(Report { x_wins, o_wins, draws, expanded }), "{}", call);
    }
}

/// A side that can force a win, and may search every move to the end, wins every game.
#[test]
fn a_side_that_sees_its_win_wins() {
    let mut seen = [0; 2];
    for mut call in taken(500) {
        (call.pool, call.limit, call.interval) = (65_536, u64::MAX, 10_000);
        let record = call.record.as_slice().try_into().expect("an accepted record");
        let side = usize::from(call.record[0] >> 7);
        let fields = oracle::search(record, 1, call.pool, call.limit, 2_000, call.interval, call.stay);
        if fields.verdict == Verdict::True {
            (call.games, call.budgets[side], call.budgets[1 - side]) = (3, LARGEST_BUDGET, 3);
            let Report { x_wins, o_wins, .. } = played(&call).report;
            assert_eq!([x_wins, o_wins][side], 3, "{}", call);
            seen[side] += 1;
        }
    }
    assert!(seen.iter().all(|times| *times > 20), "{:?}", seen);
}

/// The first games are the same whatever their number is.
#[test]
fn more_games_go_on_where_fewer_end() {
    for call in taken(300).filter(|call| call.games < 10) {
        let of = |games| played(&Simulation { games, ..call.clone() }).report;
        let numbers = |games| {
            let Report { x_wins, o_wins, draws, expanded } = of(games);
            [x_wins, o_wins, draws, expanded]
        };
        for games in 1..call.games {
            let (fewer, more) = (numbers(games), numbers(games + 1));
            assert!(fewer.iter().zip(more).all(|(fewer, more)| *fewer <= more), "{}", call);
        }
    }
}

/// Each is tried by more than ten of 2,000 calls.
#[test]
fn turns_and_draws_are_tried() {
    let mut seen: BTreeMap<&str, usize> = BTreeMap::new();
    for (what, holds) in taken(2_000).flat_map(|call| tries(&call)) {
        *seen.entry(what).or_default() += usize::from(holds);
    }
    assert!(seen.len() == 21 && seen.values().all(|times| *times > 10), "{:#?}", seen);
}

/// What a call tries, and whether it does.
fn tries(call: &Simulation) -> Vec<(&'static str, bool)> {
    let report = played(call).report;
    let ([_, budget, short, limit], lost) = endings(call);
    let other = |other: Simulation| played(&other).report != report;
    let same = || call.clone();
    let [x, o] = call.budgets;
    let (alone, o_to_move) = (call.games == 1, call.record[0] >> 7 == 1);
    vec![
        ("a search ends by its budget", budget > 0),
        ("a search ends by its pool", short > 0),
        ("a search ends by the limit", limit > 0),
        ("a move is played on a False", lost > 0),
        ("X wins", report.x_wins > 0),
        ("O wins", report.o_wins > 0),
        ("a game is drawn", report.draws > 0),
        ("games end otherwise", [report.x_wins, report.o_wins, report.draws].iter().filter(|n| **n > 0).count() > 1),
        ("nothing is expanded", report.expanded == 0),
        ("a drawn game is over", call.is_finished() && report.draws > 0),
        ("a won game is over", call.is_finished() && report.draws == 0),
        ("the largest number of games", call.games == 1_000),
        ("O is to move", o_to_move && !call.is_finished()),
        ("budgets the other way round tell", other(Simulation { budgets: [o, x], ..same() })),
        ("X's budget for both tells", other(Simulation { budgets: [x; 2], ..same() })),
        ("O's budget for both tells", other(Simulation { budgets: [o; 2], ..same() })),
        ("the seed tells, of one game", alone && other(Simulation { seed: !call.seed, ..same() })),
        ("the margin tells", call.stay != Stay::Off && other(Simulation { stay: Stay::Off, ..same() })),
        ("the limit tells", other(Simulation { limit: u64::MAX, ..same() })),
        ("rule 0 in place of 2 tells", under(call, 0).report != report),
        ("rule 1 in place of 2 tells", under(call, 1).report != report),
    ]
}
