//! Several games judged together: each result is that of a search alone, with what the two passes grant as budget.

mod common;

use common::games::{eight, ending, shared};
use common::{d, pool, w, E, FREE_CHOICE, RULES};
use ultimattt::{judge_games, search, Cause, GamesSettings, Pool, Record, Rule, SearchResult, Settings, Verdict};
use ultimattt::{BUDGET_MOST, GAMES_MOST, INTERVAL_MOST, NODE_WORDS, POOL_MOST};

/// The two passes told with searches from the start: what each game is granted, and its result.
fn alone(games: &[Record], nodes: usize, rule: Rule, s: &GamesSettings) -> Vec<(u64, SearchResult)> {
    let searched = |record: &Record, budget| {
        let settings = Settings { limit: s.limit, budget, interval: s.interval, stay: s.stay };
        (budget, search(record, &mut pool(nodes / games.len()), rule, &settings).expect("an accepted search"))
    };
    let mut results: Vec<_> = games.iter().zip(s.shares).map(|(record, share)| searched(record, share)).collect();
    let mut unspent = s.allowance - results.iter().map(|(_, result)| result.expanded).sum::<u64>();
    for (record, one) in games.iter().zip(&mut results) {
        if one.1.cause == Cause::BudgetSpent {
            *one = searched(record, one.0 + unspent);
            unspent = one.0 - one.1.expanded;
        }
    }
    results
}

/// The results, after what holds of all of them is asserted.
fn judged(games: &[Record], nodes: usize, rule: Rule, s: &GamesSettings) -> Vec<SearchResult> {
    let results = judge_games(&games.concat(), &mut pool(nodes), rule, s).expect("an accepted call");
    let due = alone(games, nodes, rule, s);
    assert_eq!(results, due.iter().map(|(_, result)| *result).collect::<Vec<_>>());
    assert!(due.iter().zip(s.shares).all(|((grant, _), share)| share <= *grant && *grant <= s.allowance));
    assert!(results.iter().map(|result| result.expanded).sum::<u64>() <= s.allowance);
    results
}

/// Expansions and cause of each game.
fn ends(results: &[SearchResult]) -> Vec<(u64, Cause)> {
    results.iter().map(|result| (result.expanded, result.cause)).collect()
}

/// Whatever its share, one game gets the whole allowance.
#[test]
fn one_game_is_a_search() {
    for (record, rule) in eight().into_iter().flat_map(|record| RULES.map(|rule| (record, rule))) {
        for allowance in [0, 1, 4, 7, 300] {
            let budget = Settings { budget: allowance, ..Settings::default() };
            let due = search(&record, &mut pool(400), rule, &budget).unwrap();
            for share in [0, 1, 4, 7, 300].into_iter().filter(|share| *share <= allowance) {
                assert_eq!(judged(&[record], 400, rule, &shared(allowance, &[share])), [due]);
            }
        }
    }
}

#[test]
fn eight_games() {
    let games = eight();
    for (rule, nodes) in RULES.into_iter().flat_map(|rule| [8, 170, 4_007].map(|nodes| (rule, nodes))) {
        for (allowance, shares) in [(0, [0; 8]), (40, [5; 8]), (400, [5; 8]), (400, [0, 1, 2, 3, 4, 5, 6, 7])] {
            assert_eq!(judged(&games, nodes, rule, &shared(allowance, &shares)).len(), 8);
        }
    }
    let results = judged(&games, 40_000, Rule::DrawLostByMover, &shared(500, &[2; 8]));
    let expanded: Vec<u64> = results.iter().map(|result| result.expanded).collect();
    assert_eq!(expanded, [7, 1, 13, 1, 0, 474, 2, 2]);
}

/// Every number of games, every one of them first, and allowances from the sum of the shares on.
#[test]
fn any_number_of_games() {
    for (count, first) in (1..=GAMES_MOST).flat_map(|count| (0..GAMES_MOST).map(move |first| (count, first))) {
        let mut games = eight();
        games.rotate_left(first);
        let shares = [3, 0, 4, 1, 0, 6, 2, 5];
        let sum: u64 = shares[..count].iter().sum();
        for (more, rule) in [0, 1, 9, 60].into_iter().flat_map(|more| RULES.map(|rule| (more, rule))) {
            judged(&games[..count], 1_000, rule, &shared(sum + more, &shares[..count]));
        }
    }
}

/// First 0, 1, 1 and 1 expansions: 17 are unspent, which the third game takes, and the fourth gets none of them.
#[test]
fn what_is_unspent_goes_to_the_first_that_was_stopped() {
    let games = [d(FREE_CHOICE), w(), E, E];
    let results = judged(&games, 4_000, Rule::DrawFalse, &shared(20, &[3, 5, 1, 1]));
    let stopped = |expanded| (expanded, Cause::BudgetSpent);
    assert_eq!(ends(&results), [(0, Cause::Solved), (1, Cause::Solved), stopped(18), stopped(1)]);
    assert_eq!(results[0].verdict, Verdict::False);
    assert_eq!(results[1].to_string(), "True 0 2147483648 2 1 1 0 1 0");
}

/// The ending goes on for 3 of 15 expansions that are unspent and is solved; the empty game gets the other 12.
#[test]
fn what_a_game_leaves_goes_to_the_next() {
    let results = judged(&[ending(), E], 4_000, Rule::DrawLostByMover, &shared(20, &[4, 1]));
    assert_eq!(results[0].to_string(), "True 0 2147483650 12 11 3 3 7 0");
    assert_eq!(ends(&results), [(7, Cause::Solved), (13, Cause::BudgetSpent)]);
}

#[test]
fn shares_of_0() {
    let results = judged(&[E, w(), d(FREE_CHOICE)], 600, Rule::DrawFalse, &shared(0, &[0; 3]));
    assert_eq!(results[0].to_string(), "Unknown 1 1 1 0 0 0 0 1");
    assert_eq!(results[1].to_string(), "Unknown 1 1 1 0 0 0 0 1");
    assert_eq!(results[2].to_string(), "False 2147483648 0 1 0 0 0 0 0");
    let results = judged(&[E, w(), E], 600, Rule::DrawFalse, &shared(3, &[0, 0, 1]));
    assert_eq!(ends(&results), [2, 0, 1].map(|expanded| (expanded, Cause::BudgetSpent)));
    let results = judged(&[w(), E, E], 600, Rule::DrawFalse, &shared(3, &[0, 0, 1]));
    let stopped = |expanded| (expanded, Cause::BudgetSpent);
    assert_eq!(ends(&results), [(1, Cause::Solved), stopped(1), stopped(1)]);
}

/// The empty game takes 82 nodes for one expansion and 90 for two: a part of one node less stops it.
#[test]
fn stopped_by_the_part() {
    let stopped = |expanded, cause| [(expanded, cause); 2];
    let two = |nodes, allowance, share| ends(&judged(&[E, E], nodes, Rule::DrawTrue, &shared(allowance, &[share; 2])));
    assert_eq!(two(163, 9, 3), stopped(0, Cause::PoolShort));
    assert_eq!(two(164, 2, 1), stopped(1, Cause::BudgetSpent));
    assert_eq!(two(164, 9, 1), stopped(1, Cause::PoolShort));
    assert_eq!(two(179, 9, 1), stopped(1, Cause::PoolShort));
    assert_eq!(two(180, 9, 1), stopped(2, Cause::PoolShort));
    assert_eq!(two(180, 3, 1), [(2, Cause::BudgetSpent), (1, Cause::BudgetSpent)]);
}

/// Live nodes are looked at on an interval-th expansion counted from the game's start, not from the second pass.
#[test]
fn stopped_by_the_limit() {
    for (share, interval, expanded) in [(0, 1, 1), (0, 2, 2), (1, 2, 2), (2, 2, 2), (1, 3, 3), (2, 3, 3), (4, 3, 3)] {
        let limit = if interval == 1 { 81 } else { 82 };
        let settings = GamesSettings { limit, interval, ..shared(30, &[share; 2]) };
        let results = judged(&[E, E], 4_000, Rule::DrawFalse, &settings);
        assert_eq!(ends(&results), [(expanded, Cause::OverLimit); 2], "share {share}, interval {interval}");
    }
}

/// One that its part or the limit stopped leaves what it didn't take, be it in the first pass or in the second.
#[test]
fn what_the_others_leave() {
    let short = judged(&[E, w()], 163, Rule::DrawFalse, &shared(1, &[1, 0]));
    assert_eq!(ends(&short), [(0, Cause::PoolShort), (1, Cause::Solved)]);
    for share in [0, 1, 2, 3] {
        let tight = GamesSettings { limit: 82, interval: 2, ..shared(3, &[share, 0]) };
        let over = judged(&[E, w()], 4_000, Rule::DrawFalse, &tight);
        assert_eq!(ends(&over), [(2, Cause::OverLimit), (1, Cause::Solved)]);
    }
}

#[test]
fn shares_past_the_games() {
    let games = [ending(), E, w()];
    let due = judged(&games, 1_000, Rule::DrawTrue, &shared(50, &[3, 4, 5]));
    for past in [0, 1, 38, 39, BUDGET_MOST, BUDGET_MOST + 1, u64::MAX / 5, 1 << 63, u64::MAX] {
        let shares = [3, 4, 5, past, past, past, past, past];
        assert_eq!(judged(&games, 1_000, Rule::DrawTrue, &shared(50, &shares)), due);
    }
}

/// Largest settings, on games that end.
#[test]
fn ends_of_the_ranges() {
    for interval in [1, INTERVAL_MOST] {
        let most = GamesSettings { interval, ..shared(BUDGET_MOST, &[BUDGET_MOST, 0]) };
        let results = judged(&[ending(), w()], 1_000, Rule::DrawLostByMover, &most);
        assert_eq!(ends(&results), [(7, Cause::Solved), (1, Cause::Solved)]);
    }
    let results = judged(&[w(), d(FREE_CHOICE), w()], POOL_MOST, Rule::DrawFalse, &shared(3, &[1; 3]));
    assert_eq!(ends(&results), [(1, Cause::Solved), (0, Cause::Solved), (1, Cause::Solved)]);
    let least = judged(&[d(FREE_CHOICE), w()], 2, Rule::DrawFalse, &shared(9, &[2; 2]));
    assert_eq!(ends(&least), [(0, Cause::Solved), (0, Cause::PoolShort)]);
}

/// Each of eight games has the program judge's budget as its share.
#[test]
fn by_default() {
    let usual = GamesSettings::default();
    assert_eq!((usual.allowance, usual.shares, usual.interval), (800_000, [100_000; 8], 10_000));
    let results = judged(&[w(), E], 2 * 3_276, Rule::DrawFalse, &usual);
    assert_eq!(results[1], search(&E, &mut Pool::default(), Rule::DrawFalse, &Settings::default()).unwrap());
}

/// Words past the parts stay as they are: of nodes that are left over, and past the last whole node.
#[test]
fn words_past_the_parts() {
    let junk: Vec<u32> = (0..3_000).map(|i: u32| i.wrapping_mul(0x9E37_79B9) ^ 0x5555_5555).collect();
    for (count, words) in (1..=GAMES_MOST).flat_map(|count| [44, 2_004, 2_039, 3_000].map(|words| (count, words))) {
        let mut used = Pool::from_words(junk[..words].to_vec());
        let settings = shared(200, &[7; GAMES_MOST]);
        let games = &eight()[..count];
        let results = judge_games(&games.concat(), &mut used, Rule::DrawFalse, &settings).unwrap();
        assert_eq!(results, judged(games, words / NODE_WORDS, Rule::DrawFalse, &settings));
        let parts = words / NODE_WORDS / count * count * NODE_WORDS;
        assert_eq!(used.words()[parts..], junk[parts..words], "{count} games in {words} words");
    }
}

/// What one call left in the pool makes no difference to the next.
#[test]
fn words_decide_nothing() {
    let mut used = Pool::from_words((0..20_000).map(|i: u32| !i).collect());
    for (count, rule) in [8, 3, 1, 5, 8].into_iter().zip(RULES.into_iter().cycle()) {
        let settings = shared(900, &[50; GAMES_MOST]);
        let results = judge_games(&eight()[..count].concat(), &mut used, rule, &settings).unwrap();
        assert_eq!(results, judged(&eight()[..count], 4_000, rule, &settings));
    }
}
