//! Games that are judged together: what holds of every call, held to lone searches; what is easily done wrong, on a few
//! small games; and that the generator's calls try it.

use calls::record::LENGTH;
use calls::table::{games_refusal, record_refusal, LARGEST_BUDGET};
use calls::{hex, Answer, Book, Call, Fields, Games, Kind, Stay};
use oracle::games::lone;
use oracle::generate::{call, Random};
use std::collections::{BTreeMap, BTreeSet};

/// Records of cases.txt. Under rule 0 A takes 7 expansions and B 6, W takes 1 and D none; E is the empty game.
const A: &str = "7822D2CD2B352CCB12D4CB52C9534A84CCB334AD52";
const B: &str = "C5132000152A001288C2D0B315404CD3228A92D0C8";
const W: &str = "12A000A80028051500054000000000000000000000";
const D: &str = "7AB400AC0054001500054000A8002A000A80054000";
const E: &str = "780000000000000000000000000000000000000000";
/// Refused by checks 2, 3 and 6.
const CODED: &str = "7E0000000000000000000000000000000000000000";
const COUNTED: &str = "7A0000000000000000000000000000000000000000";
const DONE: &str = "02B400AC0054001500054000A8002A000A80054000";

/// Games with ample parts and no limit, and zeros for the shares that are left out.
fn games(records: &[&str], shares: &[u64], allowance: u64) -> Games {
    let records = records.iter().flat_map(|record| hex::read(record).expect("hexadecimal")).collect();
    let shares = std::array::from_fn(|game| shares.get(game).copied().unwrap_or(0));
    Games { records, rule: 0, pool: 3_276, limit: u64::MAX, allowance, interval: 10_000, shares, stay: Stay::Off }
}

fn answer(games: &Games) -> Answer {
    oracle::answer(&Call::Games(games.clone()), &mut Book::default())
}

/// The expansions and the cause of each result; none with a refusal.
fn told(games: &Games) -> Vec<(u64, u64)> {
    match answer(games) {
        Answer::Games(results) => results.iter().map(|result| (result.expanded, result.cause)).collect(),
        _ => vec![],
    }
}

fn refusal(games: &Games) -> Option<(u32, u64)> {
    match answer(games) {
        Answer::Refused { number, index } => Some((number, index)),
        _ => None,
    }
}

#[test]
fn one_game_is_a_search_with_all_of_the_allowance() {
    for allowance in 0..10 {
        for share in 0..=allowance {
            let one = games(&[A], &[share], allowance);
            assert_eq!(answer(&one), Answer::Games(vec![lone(&one, 0, allowance)]), "{}", one);
        }
    }
    assert_eq!(told(&games(&[A], &[3], 6)), [(6, 1)]);
    assert_eq!(told(&games(&[A], &[3], 7)), [(7, 0)]);
}

#[test]
fn there_are_one_to_eight_games() {
    for count in 1..=8 {
        assert_eq!(told(&games(&[D].repeat(count), &[], 0)), [(0, 0)].repeat(count));
    }
    for count in [0, 9, 10] {
        assert_eq!(refusal(&games(&[D].repeat(count), &[], 0)), Some((20, 0)));
    }
}

#[test]
fn shares_may_sum_to_the_allowance() {
    let two = |shares: [u64; 2], allowance| games(&[A, B], &shares, allowance);
    assert_eq!(told(&two([7, 6], 13)), [(7, 0), (6, 0)]);
    assert_eq!(told(&two([4, 3], 7)), [(4, 1), (3, 1)]);
    assert_eq!(told(&two([0, 0], 0)), [(0, 1), (0, 1)]);
    for over in [two([7, 6], 12), two([8, 6], 13), two([0, 1], 0)] {
        assert_eq!(refusal(&over), Some((20, 0)), "{}", over);
    }
}

/// A is granted all that is unspent, and B what A leaves; B has its share in any case.
#[test]
fn what_a_game_leaves_the_next_one_gets() {
    let due = |allowance: u64| match allowance {
        4..=8 => [(allowance - 2, 1), (2, 1)],
        9..=12 => [(7, 0), (allowance - 7, 1)],
        _ => [(7, 0), (6, 0)],
    };
    for allowance in 4..16 {
        assert_eq!(told(&games(&[A, B], &[2, 2], allowance)), due(allowance), "{}", allowance);
    }
    assert_eq!(told(&games(&[B, A], &[2, 2], 12)), [(6, 0), (6, 1)]);
    assert_eq!(told(&games(&[A, A], &[2, 2], 13)), [(7, 0), (6, 1)]);
}

/// A share of 0 is that of a game like any other; one that is solved on sight leaves all of its share.
#[test]
fn a_game_may_have_no_share_or_no_use_for_it() {
    assert_eq!(told(&games(&[A, W, D], &[0, 0, 0], 8)), [(7, 0), (1, 0), (0, 0)]);
    assert_eq!(told(&games(&[A, W, D], &[0, 0, 0], 7)), [(7, 0), (0, 1), (0, 0)]);
    assert_eq!(told(&games(&[D, A], &[7, 0], 7)), [(0, 0), (7, 0)]);
    assert_eq!(told(&games(&[A, D], &[0, 7], 7)), [(7, 0), (0, 0)]);
}

/// With a part of 8 nodes A stops after 6 expansions. So it does in either pass, and what it leaves B gets.
#[test]
fn a_game_stops_where_its_part_is_short() {
    for share in 0..=10 {
        let two = Games { pool: 17, ..games(&[A, B], &[share], 10) };
        assert_eq!(told(&two), [(6, 2), (4, 1)], "a share of {}", share);
    }
}

/// With limit 6 and interval 2 A has more nodes at 3, at 5 and at 6, and 6 is the first that is tested: whatever its
/// share is, and wherever the second pass begins.
#[test]
fn the_interval_is_counted_from_the_start_of_a_game() {
    let live = |result: Fields| result.allocated - result.freed;
    let one = |share| Games { limit: 6, interval: 2, ..games(&[A], &[share], 100) };
    assert_eq!([1, 2, 3, 4, 5].map(|budget| live(lone(&one(0), 0, budget))), [5, 6, 7, 5, 7]);
    for share in 0..=100 {
        assert_eq!(told(&one(share)), [(6, 3)], "a share of {}", share);
    }
    let two = |share| Games { limit: 6, interval: 2, ..games(&[A, E], &[share], 8) };
    assert_eq!([0, 3, 6, 8].map(|share| told(&two(share))), [[(6, 3), (2, 3)]; 4]);
}

#[test]
fn a_refused_record_is_named_by_the_earliest_check_then_the_lowest_game() {
    let refused = |records: &[&str]| refusal(&Games { rule: 3, pool: 0, ..games(records, &[1], 0) });
    assert_eq!(refused(&[COUNTED, CODED]), Some((2, 1)));
    assert_eq!(refused(&[CODED, COUNTED]), Some((2, 0)));
    assert_eq!(refused(&[DONE, E, COUNTED, COUNTED]), Some((3, 2)));
    assert_eq!(refused(&[D, D, D, D, D, D, D, DONE]), Some((6, 7)));
    assert_eq!(refused(&[D, D, D, D, D, D, D, D]), Some((8, 0)));
}

/// So many calls of the generator.
fn generated(count: usize) -> impl Iterator<Item = Games> {
    let mut random = Random::new(1);
    (0..count).map(move |_| match call(&mut random, Kind::Games) {
        Call::Games(games) => games,
        call => panic!("{} is another call", call),
    })
}

/// An answered call: the results, those of the first pass, and what each game was granted.
struct Judged {
    games: Games,
    results: Vec<Fields>,
    first: Vec<Fields>,
    granted: Vec<u64>,
}

/// The calls of so many that no check refuses. What was unspent when the turn of a game came is the allowance less what
/// the games before it took in the end, and it and those behind it in the first pass.
fn judged(count: usize) -> impl Iterator<Item = Judged> {
    generated(count).filter_map(|games| {
        let Answer::Games(results) = answer(&games) else { return None };
        let first: Vec<Fields> = (0..games.count()).map(|game| lone(&games, game, games.shares[game])).collect();
        let taken = |results: &[Fields]| results.iter().map(|result| result.expanded).sum::<u64>();
        let granted = |game: usize| match first[game].cause {
            1 => games.shares[game] + (games.allowance - taken(&results[..game]) - taken(&first[game..])),
            _ => games.shares[game],
        };
        let granted = (0..games.count()).map(granted).collect();
        Some(Judged { games, results, first, granted })
    })
}

#[test]
fn each_result_is_that_of_a_lone_search_with_what_was_granted() {
    let mut seen = 0;
    for Judged { games, results, granted, .. } in judged(3_000) {
        let alone: Vec<Fields> = granted.iter().enumerate().map(|(game, budget)| lone(&games, game, *budget)).collect();
        assert_eq!(results, alone, "{}", games);
        assert!(granted.iter().zip(games.shares).all(|(budget, share)| *budget >= share), "{}", games);
        assert!(results.iter().map(|result| result.expanded).sum::<u64>() <= games.allowance, "{}", games);
        seen += 1;
    }
    assert!(seen > 1_500, "only {} calls were answered", seen);
}

/// Each is tried by more than twenty of 6,000 calls.
#[test]
fn passes_are_tried() {
    let mut seen: BTreeMap<&str, usize> = BTreeMap::new();
    for (what, holds) in judged(6_000).flat_map(|judged| judged.tries()) {
        *seen.entry(what).or_default() += usize::from(holds);
    }
    assert!(seen.len() == 19 && seen.values().all(|times| *times > 20), "{:#?}", seen);
}

impl Judged {
    /// What an answered call tries, and whether it does.
    fn tries(&self) -> Vec<(&'static str, bool)> {
        let all = 0..self.games.count();
        let any = |holds: &dyn Fn(usize) -> bool| all.clone().any(holds);
        let (first, last) = (|game: usize| self.first[game].cause, |game: usize| self.results[game].cause);
        let (share, goes_on) = (|game: usize| self.games.shares[game], |game: usize| self.goes_on(game));
        let then_stopped = |game: usize| (game + 1..all.end).any(|later| goes_on(later) && last(later) == 1);
        let leaves = |game: usize| self.first[game].expanded < share(game) && then_stopped(game);
        vec![
            ("a game is solved on sight", any(&|game| first(game) == 0 && self.first[game].expanded == 0)),
            ("a game is solved in the first pass", any(&|game| first(game) == 0 && self.first[game].expanded > 0)),
            ("a game goes on and is solved", any(&|game| goes_on(game) && last(game) == 0)),
            ("a game goes on and spends all", any(&|game| goes_on(game) && last(game) == 1)),
            ("a game goes on to the end of its part", any(&|game| goes_on(game) && last(game) == 2)),
            ("a game goes on to the limit", any(&|game| goes_on(game) && last(game) == 3)),
            ("a game goes on after one that is solved", any(&|g| goes_on(g) && last(g) == 0 && then_stopped(g))),
            ("a game goes on after one that is short", any(&|g| goes_on(g) && last(g) == 2 && then_stopped(g))),
            ("a game goes on after one at the limit", any(&|g| goes_on(g) && last(g) == 3 && then_stopped(g))),
            ("a game goes on with what a short one leaves", any(&|game| first(game) == 2 && leaves(game))),
            ("a game goes on with what one at the limit leaves", any(&|game| first(game) == 3 && leaves(game))),
            ("a game goes on with what a solved one leaves", any(&|game| first(game) == 0 && leaves(game))),
            ("a game without a share goes on", any(&|game| share(game) == 0 && goes_on(game))),
            ("three games go on", all.clone().filter(|game| goes_on(*game)).count() > 2),
            ("nothing is left to go on with", any(&|game| first(game) == 1) && !any(&goes_on)),
            ("the same record gets two results", self.differs_for_one_record()),
            ("the shares sum to the allowance", self.games.shares_read().iter().sum::<u64>() == self.games.allowance),
            ("the allowance is the largest", self.games.allowance == LARGEST_BUDGET),
            ("shares past the games are too large", self.games.shares[all.end..].iter().any(|s| *s > LARGEST_BUDGET)),
        ]
    }

    /// The game is granted more than its share.
    fn goes_on(&self, game: usize) -> bool {
        self.granted[game] > self.games.shares[game]
    }

    fn differs_for_one_record(&self) -> bool {
        let results = || self.games.records.chunks(LENGTH).zip(&self.results);
        results().any(|(record, result)| results().any(|(other, its)| record == other && result != its))
    }
}

/// Refused records come alone and with others that another check refuses; slices are too short, too long and cut.
#[test]
fn refused_records_are_tried() {
    let (mut numbers, mut apart, mut rests) = (BTreeSet::new(), 0, BTreeSet::new());
    for games in generated(4_000) {
        rests.insert(games.records.len() % LENGTH);
        let refused: BTreeSet<u32> = games.records.chunks_exact(LENGTH).filter_map(record_refusal).collect();
        if let Some((number @ (2..=6 | 22), index)) = games_refusal(&games) {
            apart += usize::from(refused.len() > 1);
            numbers.insert((number, index.min(2)));
        }
    }
    let checks = (2..=6).chain([22]);
    assert_eq!(numbers, checks.flat_map(|number| (0..=2).map(move |index| (number, index))).collect());
    assert!(apart > 50 && rests.len() > 5, "{} calls with two checks, {:?}", apart, rests);
}
