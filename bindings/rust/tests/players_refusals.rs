//! What a simulation refuses, in which order, and that a refusal writes nothing.

mod common;

use common::ffi::{uttt_simulate, SimulateAnswer};
use common::games::ending;
use common::players::{b, finished, k3, report};
use common::{budgets, passed, pool, refused_records, w, E};
use ultimattt::{simulate, PlayersSettings, Pool, Record, Refusal, Stay};
use ultimattt::{BUDGET_MOST, INTERVAL_MOST, POOL_MOST, SIMULATED_MOST};

/// What the pool holds before a call.
const WORD: u32 = 0xA5A5_A5A5;
/// Above the range of a budget: by one, by as much as 32 bits would cut off, and the largest.
const OVER: [u64; 3] = [BUDGET_MOST + 1, 1 << 32, u64::MAX];

/// The call's own answer.
fn answer(record: &[u8], pool: &mut [u32], games: u64, s: &PlayersSettings) -> SimulateAnswer {
    let (at, length, words, number) = (record.as_ptr(), record.len(), pool.as_mut_ptr(), pool.len());
    let PlayersSettings { limit, x_budget: x, o_budget: o, interval, stay } = *s;
    let (staying, margin) = passed(stay);
    // SAFETY: both slices are valid for their lengths, and a &mut overlaps nothing.
    unsafe { uttt_simulate(at, length, words, number, 1, games, limit, x, o, interval, staying, margin) }
}

/// The code of a refusal, whose other fields are 0 and which leaves every word of the pool.
fn refused(record: &[u8], words: usize, games: u64, s: &PlayersSettings) -> u32 {
    let mut pool = vec![WORD; words];
    let found = answer(record, &mut pool, games, s);
    assert_ne!(found.code, 0);
    assert_eq!((found.index, found.expanded), (0, 0));
    assert_eq!((found.x_wins, found.o_wins, found.draws), (0, 0, 0));
    assert!(pool.iter().all(|word| *word == WORD));
    found.code
}

/// Records of each kind: X to move, O to move, and finished.
fn records() -> [Record; 5] {
    [ending(), b(), w(), finished()[0].0, finished()[2].0]
}

fn usual() -> PlayersSettings {
    budgets(2, 2)
}

#[test]
fn number_of_games() {
    for games in [0, SIMULATED_MOST + 1, 1 << 16 | 1, 1 << 32 | 1, 1 << 63 | 1, u64::MAX] {
        for record in records() {
            assert_eq!(refused(&record, 99, games, &usual()), 23);
            let wrapped = simulate(&record, &mut pool(9), 1, games, &usual());
            assert_eq!(wrapped, Err(Refusal::GamesNumber));
        }
    }
    for games in [1, 2, SIMULATED_MOST - 1, SIMULATED_MOST] {
        assert_eq!(simulate(&w(), &mut pool(9), 1, games, &usual()), Ok(report(games, 0, 0, 0)));
        assert_eq!(simulate(&finished()[2].0, &mut pool(1), 1, games, &usual()), Ok(report(0, 0, games, 0)));
    }
}

/// Each player's budget alone, whoever is to move, and of a finished record too.
#[test]
fn budgets_out_of_range() {
    for (record, over) in records().into_iter().flat_map(|record| OVER.map(|over| (record, over))) {
        for settings in [budgets(over, 2), budgets(2, over), budgets(over, over)] {
            assert_eq!(refused(&record, 99, 1, &settings), 10);
            assert_eq!(simulate(&record, &mut pool(9), 1, 1, &settings), Err(Refusal::SettingRange));
        }
    }
    for settings in [budgets(BUDGET_MOST, 0), budgets(0, BUDGET_MOST), budgets(BUDGET_MOST, BUDGET_MOST)] {
        assert_eq!(simulate(&w(), &mut pool(9), 1, 1, &settings), Ok(report(1, 0, 0, 0)));
        assert_eq!(simulate(&finished()[0].0, &mut pool(1), 1, 1, &settings), Ok(report(1, 0, 0, 0)));
    }
}

#[test]
fn intervals_and_limits() {
    for (record, interval) in records().into_iter().flat_map(|r| [0, INTERVAL_MOST + 1, u64::MAX].map(|i| (r, i))) {
        assert_eq!(refused(&record, 99, 1, &PlayersSettings { interval, ..usual() }), 10);
    }
    for (interval, limit) in [1, INTERVAL_MOST].into_iter().flat_map(|i| [0, 1, u64::MAX].map(|l| (i, l))) {
        let settings = PlayersSettings { interval, limit, ..usual() };
        assert!(simulate(&ending(), &mut pool(99), 1, 1, &settings).is_ok());
    }
}

#[test]
fn margins() {
    for margin in [f64::NAN, f64::INFINITY, 0.1, -1.0 / 256.0, 257.0 / 256.0, f64::from_bits(1)] {
        let settings = PlayersSettings { stay: Stay::Margin(margin), ..usual() };
        for record in records() {
            assert_eq!(refused(&record, 99, 1, &settings), 21);
            assert_eq!(simulate(&record, &mut pool(9), 1, 1, &settings), Err(Refusal::Margin));
        }
    }
}

/// With staying false any margin may come.
#[test]
fn not_read_where_it_is_off() {
    let record = k3();
    for margin in [0.0, 1.0, 0.1, f64::NAN, f64::NEG_INFINITY, f64::from_bits(u64::MAX)] {
        let mut words = [WORD; 99];
        let (at, to) = (record.as_ptr(), words.as_mut_ptr());
        // SAFETY: both slices are valid for their lengths, and a &mut overlaps nothing.
        let found = unsafe { uttt_simulate(at, 21, to, 99, 1, 3, u64::MAX, 1, 1, 1, false, margin) };
        assert_eq!((found.code, found.index), (0, 0));
        assert_eq!((found.x_wins, found.o_wins, found.draws, found.expanded), (0, 0, 3, 3));
        assert_eq!(words[95..], [WORD; 4]);
    }
}

#[test]
fn pools() {
    for (record, words) in records().into_iter().flat_map(|record| (0..5).map(move |words| (record, words))) {
        assert_eq!(refused(&record, words, 1, &usual()), 8);
    }
    assert!(records().iter().all(|record| answer(record, &mut [WORD; 5], 1, &usual()).code == 0));
    let mut large = Pool::from_words(vec![0; (POOL_MOST + 1) * 5]);
    assert!(records().iter().all(|r| simulate(r, &mut large, 1, 1, &usual()) == Err(Refusal::PoolTooLarge)));
    let mut most = Pool::from_words(large.into_words().split_off(5));
    assert_eq!(simulate(&w(), &mut most, 1, 1, &usual()), Ok(report(1, 0, 0, 0)));
}

/// Each check ahead of all that come after it: what is wrong is put right one after the other.
#[test]
fn order_of_the_checks() {
    let bad = PlayersSettings { stay: Stay::Margin(f64::NAN), ..usual() };
    let late = PlayersSettings { interval: 0, x_budget: OVER[0], o_budget: OVER[0], ..bad };
    for (record, number) in refused_records() {
        for (words, games, settings) in [(4, 0, late), (99, 1, usual()), (99, 1_001, bad)] {
            assert_eq!(refused(&record, words, games, &settings), number);
        }
    }
    for record in [&records()[..], &[E]].concat() {
        assert_eq!(refused(&record, 4, 0, &late), 8);
        let mut large = Pool::from_words(vec![0; (POOL_MOST + 1) * 5]);
        assert_eq!(simulate(&record, &mut large, 1, 0, &late), Err(Refusal::PoolTooLarge));
        for wrong in [
            PlayersSettings { interval: 0, ..bad },
            PlayersSettings { x_budget: OVER[0], ..bad },
            PlayersSettings { o_budget: OVER[0], ..bad },
        ] {
            assert_eq!(refused(&record, 5, 1_001, &wrong), 10);
        }
        assert_eq!(refused(&record, 5, 1_001, &bad), 21);
        assert_eq!(refused(&record, 5, 0, &bad), 21);
        assert_eq!(refused(&record, 5, 1_001, &usual()), 23);
        assert_eq!(answer(&record, &mut [WORD; 5], 1, &usual()).code, 0);
    }
}
