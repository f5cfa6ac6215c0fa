//! Simulated players: each report is that of the same games told with moves, replays and searches.

mod common;

use common::games::{eight, ending};
use common::players::{b, finished, k2, k3, report, w2, Players, STEP};
use common::{budgets, pool, s, w, E};
use ultimattt::{simulate, PlayersSettings, Pool, Record, Report, Stay, BUDGET_MOST, INTERVAL_MOST, SIMULATED_MOST};

/// The least and the largest; then two with which the first draw's state is 0 and the largest; then any.
const SEEDS: [u64; 6] = [0, u64::MAX, STEP.wrapping_neg(), STEP.wrapping_neg() - 1, 1 << 63, 0x0123_4567_89AB_CDEF];

/// The report, after what holds of every report is asserted.
fn simulated(record: &Record, nodes: usize, seed: u64, games: u64, s: &PlayersSettings) -> Report {
    let found = simulate(record, &mut pool(nodes), seed, games, s).expect("an accepted call");
    assert_eq!(found.x_wins + found.o_wins + found.draws, games);
    assert_eq!(found, Players::new(nodes, seed, s).games(record, games), "seed {seed}, {games} games, {s:?}");
    found
}

/// The first of X's moves wins and is searched alone; of W2 the last, and four others are searched before it.
#[test]
fn won_at_once() {
    assert_eq!(simulated(&w(), 6, 7, 2, &budgets(1, 1)), report(2, 0, 0, 0));
    assert_eq!(simulated(&w(), 1, 7, 1, &budgets(0, 0)), report(1, 0, 0, 0));
    assert_eq!(simulated(&w2(), 3_276, 7, 2, &budgets(0, 9)), report(2, 0, 0, 0));
    assert_eq!(simulated(&w2(), 3_276, 7, 2, &budgets(1, 0)), report(2, 0, 0, 8));
}

/// A lone move is searched too, here for one expansion; one that ends the game takes none.
#[test]
fn one_move_and_one_reply() {
    assert_eq!(simulated(&k3(), 3_276, 1, 3, &budgets(1, 1)), report(0, 0, 3, 3));
    assert_eq!(simulated(&k3(), 3_276, 1, 3, &budgets(0, 3)), report(0, 0, 3, 0));
    assert_eq!(simulated(&k2(), 3_276, 1, 3, &budgets(9, 9)), report(0, 0, 3, 0));
}

#[test]
fn an_ending() {
    assert_eq!(simulated(&ending(), 3_276, 1, 3, &budgets(0, 3)), report(1, 0, 2, 4));
    assert_eq!(simulated(&ending(), 3_276, 0, 1, &budgets(3, 0)), report(0, 0, 1, 13));
    assert_eq!(simulated(&ending(), 3_276, u64::MAX, 5, &budgets(0, 3)), report(1, 0, 4, 6));
}

/// Every game of a finished record ends as it is, whatever the settings, and no word of the pool is written.
#[test]
fn finished_records() {
    for (record, one) in finished() {
        for (seed, games) in SEEDS.into_iter().flat_map(|seed| [1, 2, SIMULATED_MOST].map(|games| (seed, games))) {
            let due = report(one.x_wins * games, one.o_wins * games, one.draws * games, 0);
            for settings in [budgets(0, 0), budgets(BUDGET_MOST, BUDGET_MOST)] {
                let mut pool = Pool::from_words(vec![0xA5A5_A5A5; 9]);
                assert_eq!(simulate(&record, &mut pool, seed, games, &settings), Ok(due));
                assert_eq!(pool.words(), [0xA5A5_A5A5; 9]);
            }
        }
    }
}

/// Who is to move in the record has its own budget there.
#[test]
fn o_to_move() {
    for (seed, games) in SEEDS.into_iter().flat_map(|seed| [1, 4].map(|games| (seed, games))) {
        for (x, o) in [(0, 0), (0, 3), (3, 0), (2, 40)] {
            simulated(&b(), 500, seed, games, &budgets(x, o));
            simulated(&s(), 500, seed, games, &budgets(x, o));
        }
    }
}

/// All moves are drawn but for those that end the game and win: these are solved on sight.
#[test]
fn budgets_of_0() {
    for seed in SEEDS {
        let found = simulated(&E, 100, seed, 2, &budgets(0, 0));
        assert_eq!(found.expanded, 0);
        assert_eq!(found, simulated(&E, 1, seed, 2, &budgets(BUDGET_MOST, BUDGET_MOST)));
    }
    for record in eight() {
        assert_eq!(simulated(&record, 100, 3, 9, &budgets(0, 0)).expanded, 0);
    }
}

/// O to move can force a win in S, and with a large budget it does so in every game.
#[test]
fn one_large_budget() {
    for (seed, x) in SEEDS.into_iter().flat_map(|seed| [0, 1, 300].map(|x| (seed, x))) {
        assert_eq!(simulated(&s(), 3_276, seed, 6, &budgets(x, 100_000)).o_wins, 6);
    }
    for (seed, other) in SEEDS.into_iter().flat_map(|seed| [0, 5].map(|other| (seed, other))) {
        simulated(&ending(), 3_276, seed, 3, &budgets(BUDGET_MOST, other));
        simulated(&ending(), 3_276, seed, 3, &budgets(other, BUDGET_MOST));
    }
}

/// Each ending with many pairs of budgets, and middle games with some.
#[test]
fn pairs_of_budgets() {
    for (x, o) in (0..6).flat_map(|x| (0..6).map(move |o| (x, o))) {
        simulated(&ending(), 90, 5, 3, &budgets(x, o));
        simulated(&b(), 90, 5, 3, &budgets(x, o));
    }
    for record in [eight()[5], eight()[7], E] {
        simulated(&record, 400, 11, 1, &budgets(30, 0));
        simulated(&record, 400, 11, 1, &budgets(0, 30));
        simulated(&record, 400, 11, 1, &budgets(4, 4));
    }
}

/// Every number up to 12, and the most.
#[test]
fn numbers_of_games() {
    for (games, seed) in (1..=12).flat_map(|games| SEEDS.map(|seed| (games, seed))) {
        simulated(&ending(), 60, seed, games, &budgets(1, 1));
    }
    simulated(&ending(), 60, 1, SIMULATED_MOST, &budgets(2, 0));
    assert_eq!(simulated(&w(), 6, 0, SIMULATED_MOST, &budgets(1, 1)), report(SIMULATED_MOST, 0, 0, 0));
}

/// The games after the first ones are those of the state that these left.
#[test]
fn the_state_goes_on() {
    for (seed, first) in SEEDS.into_iter().flat_map(|seed| (1..9).map(move |first| (seed, first))) {
        let settings = budgets(1, 2);
        let mut players = Players::new(80, seed, &settings);
        let (a, whole) = (players.games(&ending(), first), simulated(&ending(), 80, seed, 9, &settings));
        let b = simulated(&ending(), 80, players.state, 9 - first, &settings);
        let sums = (a.x_wins + b.x_wins, a.o_wins + b.o_wins, a.draws + b.draws, a.expanded + b.expanded);
        assert_eq!(sums, (whole.x_wins, whole.o_wins, whole.draws, whole.expanded));
    }
}

/// The lower 32 bits of a seed count by their carry alone: seeds next to each other draw the same moves here.
#[test]
fn near_seeds() {
    let found = |seed| simulated(&eight()[2], 60, seed, 20, &budgets(0, 0));
    assert_eq!([0, 1, 7, u64::MAX].map(found), [report(0, 10, 10, 0); 4]);
    assert_eq!(found(1 << 63), report(0, 13, 7, 0));
}

/// Pool, limit and interval stop searches, and staying leads them another way.
#[test]
fn what_bounds_the_searches() {
    let usual = budgets(40, 40);
    for (nodes, seed) in [1, 2, 5, 9, 14, 30, 200].into_iter().flat_map(|nodes| [1, 9].map(|seed| (nodes, seed))) {
        simulated(&b(), nodes, seed, 3, &usual);
        simulated(&ending(), nodes, seed, 3, &usual);
    }
    for (limit, interval) in [(0, 1), (4, 1), (4, 2), (8, 3), (0, INTERVAL_MOST)] {
        simulated(&b(), 400, 2, 3, &PlayersSettings { limit, interval, ..usual });
        simulated(&ending(), 400, 2, 3, &PlayersSettings { limit, interval, ..usual });
    }
    let stays = [Stay::Off, Stay::Margin(0.0), Stay::Margin(-0.0), Stay::Margin(0.5), Stay::Margin(1.0)];
    let found = stays.map(|stay| simulated(&eight()[5], 400, 2, 3, &PlayersSettings { stay, ..usual }));
    assert_eq!(found[1], found[2]);
    assert!(found[0] != found[1] && found[0] != found[4] && found[1] != found[4]);
}

/// A thousand nodes and four words more, all of them junk.
fn junk() -> Vec<u32> {
    (0..5_004).map(|i: u32| i.wrapping_mul(0x9E37_79B9) ^ 0x5555_5555).collect()
}

/// What the pool holds decides nothing, and the words past its last whole node stay as they are.
#[test]
fn words_of_the_pool() {
    let mut used = Pool::from_words(junk());
    for (record, seed) in [ending(), E, b(), w(), s(), eight()[5]].into_iter().zip(SEEDS.into_iter().cycle()) {
        let settings = budgets(20, 6);
        let due = simulated(&record, 1_000, seed, 2, &settings);
        for mut other in [Pool::from_words(junk()), Pool::from_words(vec![u32::MAX; 5_003])] {
            assert_eq!(simulate(&record, &mut other, seed, 2, &settings), Ok(due));
        }
        for _ in 0..2 {
            assert_eq!(simulate(&record, &mut used, seed, 2, &settings), Ok(due));
        }
        assert_eq!(used.words()[5_000..], junk()[5_000..]);
    }
}

/// Both budgets are the program judge's.
#[test]
fn by_default() {
    let usual = PlayersSettings::default();
    assert_eq!((usual.limit, usual.x_budget, usual.o_budget), (u64::MAX, 100_000, 100_000));
    assert_eq!((usual.interval, usual.stay), (10_000, Stay::Off));
    simulated(&ending(), 3_276, 1, 2, &usual);
}
