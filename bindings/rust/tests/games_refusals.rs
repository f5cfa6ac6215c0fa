//! What a call that judges several games refuses, in which order, and that a refusal writes nothing.

mod common;

use common::ffi::{uttt_judge_games, GamesAnswer, ResultFields};
use common::games::{eight, shared};
use common::{passed, pool, refused_records, w, E};
use ultimattt::{judge_games, GamesSettings, Pool, Refusal, Rule, Stay};
use ultimattt::{BUDGET_MOST, GAMES_MOST, INTERVAL_MOST, POOL_MOST};

/// What the pool holds before a call.
const WORD: u32 = 0xA5A5_A5A5;

/// The answer to any rule, those that the wrapper has no name for too.
fn answer(records: &[u8], pool: &mut [u32], rule: u64, s: &GamesSettings) -> GamesAnswer {
    let (at, length, words, number) = (records.as_ptr(), records.len(), pool.as_mut_ptr(), pool.len());
    let GamesSettings { limit, allowance, interval, shares, stay } = s;
    let (staying, margin) = passed(*stay);
    // SAFETY: the slices and the eight shares are valid for their lengths, and a &mut overlaps nothing.
    unsafe { uttt_judge_games(at, length, words, number, shares, rule, *limit, *allowance, *interval, staying, margin) }
}

/// Code and index of a refusal, whose other fields are 0 and which leaves every word of the pool.
fn refused(records: &[u8], words: usize, rule: u64, s: &GamesSettings) -> (u32, u64) {
    let mut pool = vec![WORD; words];
    let found = answer(records, &mut pool, rule, s);
    assert_ne!(found.code, 0);
    assert_eq!(found.count, 0);
    assert!(found.results == [ResultFields::default(); GAMES_MOST]);
    assert!(pool.iter().all(|word| *word == WORD));
    (found.code, found.index)
}

/// The wrapper's answer in a pool of a thousand nodes.
fn judged(games: &[Vec<u8>], s: &GamesSettings) -> Result<usize, Refusal> {
    judge_games(&games.concat(), &mut pool(1_000), Rule::DrawFalse, s).map(|results| results.len())
}

/// So many games, all of them W.
fn games(count: usize) -> Vec<Vec<u8>> {
    vec![w().to_vec(); count]
}

/// Settings that nothing is wrong with, and that are more than W takes.
fn usual() -> GamesSettings {
    shared(16, &[2; GAMES_MOST])
}

#[test]
fn results_past_the_games() {
    for count in 1..=GAMES_MOST {
        let found = answer(&games(count).concat(), &mut [0; 250], 1, &usual());
        assert_eq!((found.code, found.index, found.count), (0, 0, count as u64));
        let solved = |fields: &ResultFields| (fields.verdict, fields.expanded, fields.cause) == (1, 1, 0);
        assert!(found.results[..count].iter().all(solved));
        assert!(found.results[count..].iter().all(|fields| *fields == ResultFields::default()));
    }
}

#[test]
fn number_of_games() {
    for count in [0, 9, 10, 16, 17, 264] {
        assert_eq!(judged(&games(count), &usual()), Err(Refusal::GameCount));
        assert_eq!(refused(&games(count).concat(), 500, 1, &usual()), (20, 0));
    }
    for count in 1..=GAMES_MOST {
        assert_eq!(judged(&games(count), &usual()), Ok(count));
    }
}

#[test]
fn length_of_the_records() {
    let bytes = games(10).concat();
    for length in (1..bytes.len()).filter(|length| length % 21 != 0) {
        let wrapped = judge_games(&bytes[..length], &mut pool(50), Rule::DrawFalse, &usual());
        assert_eq!(wrapped, Err(Refusal::RecordLength));
        assert_eq!(refused(&bytes[..length], 250, 1, &usual()), (1, 0));
    }
}

/// In any number of games, wherever the refused one stands.
#[test]
fn a_refused_record_is_named_by_its_game() {
    for (record, number) in refused_records()[1..].iter().map(|(record, number)| (record, *number)) {
        for (count, at) in (1..=GAMES_MOST).flat_map(|count| (0..count).map(move |at| (count, at))) {
            let mut records = games(count);
            records[at] = record.clone();
            assert_eq!(refused(&records.concat(), 500, 1, &usual()), (number, at as u64));
            let refusal = judged(&records, &usual()).unwrap_err();
            assert_eq!((refusal.number(), refusal.index()), (number, Some(at)));
            assert!(
                matches!(refusal, Refusal::InGame(_, fault) if fault.number() == number && fault.index().is_none())
            );
        }
    }
}

/// Of the checks' numbers, 0 where none refuses the record, the least, then the first game of it.
fn due(numbers: &[u32]) -> (u32, u64) {
    let number = *numbers.iter().filter(|number| **number > 0).min().expect("a refused record");
    (number, numbers.iter().position(|n| *n == number).expect("its game") as u64)
}

#[test]
fn earliest_check_then_lowest_game() {
    let mut records = refused_records();
    records[0] = (w().to_vec(), 0);
    for kinds in (1..7 * 7 * 7).map(|n| [n / 49, n / 7 % 7, n % 7]) {
        let three = kinds.map(|kind| records[kind].0.clone());
        let numbers = kinds.map(|kind| records[kind].1);
        assert_eq!(refused(&three.concat(), 500, 1, &usual()), due(&numbers), "{kinds:?}");
    }
    let kinds = [6, 5, 4, 0, 3, 2, 3, 2];
    let eight = kinds.map(|kind| records[kind].0.clone());
    assert_eq!(refused(&eight.concat(), 500, 1, &usual()), (3, 5));
    assert_eq!(judged(&eight, &usual()), Err(Refusal::InGame(5, &Refusal::CellCounts)));
}

/// A part has a node if there are as many nodes as games.
#[test]
fn parts_of_no_node() {
    for count in 1..=GAMES_MOST {
        let records = games(count).concat();
        for words in 0..5 * count {
            assert_eq!(refused(&records, words, 1, &usual()), (8, 0));
        }
        assert_eq!(answer(&records, &mut vec![0; 5 * count], 1, &usual()).code, 0);
    }
    let mut three = pool(3);
    let wrapped = judge_games(&games(4).concat(), &mut three, Rule::DrawFalse, &usual());
    assert_eq!(wrapped, Err(Refusal::PoolEmpty));
}

/// The whole pool is measured, though every part is small enough.
#[test]
fn pools_too_large() {
    let mut large = Pool::from_words(vec![0; (POOL_MOST + 1) * 5]);
    for count in [1, GAMES_MOST] {
        let wrapped = judge_games(&games(count).concat(), &mut large, Rule::DrawFalse, &usual());
        assert_eq!(wrapped, Err(Refusal::PoolTooLarge));
    }
}

#[test]
fn settings_out_of_range() {
    let records = games(3).concat();
    for rule in [3, 4, 1 << 32, u64::MAX] {
        assert_eq!(refused(&records, 500, rule, &usual()), (10, 0));
    }
    for interval in [0, INTERVAL_MOST + 1, u64::MAX] {
        assert_eq!(refused(&records, 500, 1, &GamesSettings { interval, ..usual() }), (10, 0));
    }
    for over in [BUDGET_MOST + 1, 1 << 63, u64::MAX] {
        assert_eq!(refused(&records, 500, 1, &shared(over, &[1; 3])), (10, 0));
        for at in 0..3 {
            let mut shares = [1; 3];
            shares[at] = over;
            assert_eq!(refused(&records, 500, 1, &shared(BUDGET_MOST, &shares)), (10, 0));
        }
    }
    assert_eq!(judged(&games(3), &shared(BUDGET_MOST + 1, &[0; 3])), Err(Refusal::SettingRange));
}

/// The sum is that of the games' shares, and may be the allowance but not above it.
#[test]
fn shares_above_the_allowance() {
    let shares = [5, 0, 7, 1, 1, 0, 20, 3];
    for count in 1..=GAMES_MOST {
        let sum: u64 = shares[..count].iter().sum();
        for allowance in 0..sum {
            assert_eq!(refused(&games(count).concat(), 500, 1, &shared(allowance, &shares)), (20, 0));
        }
        let under = shared(sum - 1, &shares[..count]);
        assert_eq!(judged(&games(count), &under), Err(Refusal::SharesOverAllowance));
        assert_eq!(judged(&games(count), &shared(sum, &shares[..count])), Ok(count));
        assert_eq!(judged(&games(count), &shared(sum, &shares)), Ok(count));
    }
    let large = shared(BUDGET_MOST, &[BUDGET_MOST; 8]);
    assert_eq!(judged(&games(8), &large), Err(Refusal::SharesOverAllowance));
    assert_eq!(judged(&games(1), &large), Ok(1));
    assert_eq!(judged(&games(1), &shared(0, &[0])), Ok(1));
    assert_eq!(judged(&games(1), &shared(0, &[1])), Err(Refusal::SharesOverAllowance));
}

/// Each check ahead of all that come after it: what is wrong is put right one after the other.
#[test]
fn order_of_the_checks() {
    let refusals = refused_records();
    let over = shared(1, &[1; GAMES_MOST]);
    let bad = GamesSettings { stay: Stay::Margin(f64::NAN), ..over };
    let late = GamesSettings { interval: 0, ..bad };
    let mut records = vec![[0xFF; 22].to_vec(); 9];
    assert_eq!(refused(&records.concat(), 4, 3, &late), (1, 0));
    records = vec![refusals[1].0.clone(); 9];
    assert_eq!(refused(&records.concat(), 4, 3, &late), (20, 0));
    assert_eq!(refused(&[], 0, 3, &late), (20, 0));
    for (record, number) in &refusals[1..] {
        records = [w().to_vec(), E.to_vec(), record.clone()].to_vec();
        assert_eq!(refused(&records.concat(), 4, 3, &late), (*number, 2));
    }
    let accepted = eight().concat();
    assert_eq!(refused(&accepted, 39, 3, &late), (8, 0));
    assert_eq!(refused(&accepted, 40, 3, &bad), (10, 0));
    assert_eq!(refused(&accepted, 40, 2, &late), (10, 0));
    assert_eq!(refused(&accepted, 40, 2, &shared(1, &[BUDGET_MOST + 1; 8])), (10, 0));
    assert_eq!(refused(&accepted, 40, 2, &bad), (21, 0));
    assert_eq!(refused(&accepted, 40, 2, &over), (20, 0));
    let mut large = Pool::from_words(vec![0; (POOL_MOST + 1) * 5]);
    assert_eq!(judge_games(&accepted, &mut large, Rule::DrawTrue, &late), Err(Refusal::PoolTooLarge));
}
