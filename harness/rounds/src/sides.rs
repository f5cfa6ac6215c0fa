//! Eight games judged by one call, and by lone searches.

use crate::games::PART_WORDS;
use calls::games::MOST_GAMES;
use calls::record::LENGTH;
use calls::Games;
use uttt::ffi::{self, ResultFields};

/// The causes of a search that solved its position and of one that spent its budget.
pub const SOLVED: u32 = 0;
const BUDGET: u32 = 1;

pub type Results = [ResultFields; MOST_GAMES];
pub type Budgets = [u64; MOST_GAMES];

/// All eight by one call, which is lent a whole pool.
pub fn together(games: &Games, pool: &mut [u32]) -> Results {
    let Games { records, rule, limit, allowance, interval, shares, stay, .. } = games;
    let (from, bytes, to, length) = (records.as_ptr(), records.len(), pool.as_mut_ptr(), pool.len());
    let (staying, margin) = stay.passed(0.0);
    // SAFETY: pointers and lengths belong together, and the buffers are apart.
    let answer = unsafe {
        ffi::uttt_judge_games(from, bytes, to, length, shares, *rule, *limit, *allowance, *interval, staying, margin)
    };
    assert_eq!((answer.code, answer.index, answer.count), (0, 0, MOST_GAMES as u64), "the games were refused");
    answer.results
}

/// Eight lone searches with these budgets, each with the words that its game has in the call.
pub fn alone(games: &Games, budgets: &Budgets, pool: &mut [u32]) -> Results {
    std::array::from_fn(|game| lone(games, game, budgets[game], pool))
}

fn lone(games: &Games, game: usize, budget: u64, pool: &mut [u32]) -> ResultFields {
    let record = &games.records[LENGTH * game..LENGTH * (game + 1)];
    let part = &mut pool[PART_WORDS * game..PART_WORDS * (game + 1)];
    let Games { rule, limit, interval, stay, .. } = *games;
    let (from, bytes, to, length) = (record.as_ptr(), record.len(), part.as_mut_ptr(), part.len());
    let (staying, margin) = stay.passed(0.0);
    // SAFETY: pointers and lengths belong together, and the buffers are apart.
    let answer = unsafe { ffi::uttt_search(from, bytes, to, length, rule, limit, budget, interval, staying, margin) };
    assert_eq!(answer.code, 0, "a game was refused");
    answer.result
}

/// Both passes by lone searches.
pub struct Passes {
    pub first: Results,
    /// What each game is granted in the end.
    pub grants: Budgets,
    pub results: Results,
    /// All expansions that were done, those of a game's two searches too.
    pub done: u64,
}

/// Both passes by lone searches: a game that goes on in the second is searched again from its start.
pub fn again(games: &Games, pool: &mut [u32]) -> Passes {
    let first = alone(games, &games.shares, pool);
    let (mut grants, mut results, mut done) = (games.shares, first, expanded(&first));
    let mut unspent = games.allowance - done;
    for game in 0..MOST_GAMES {
        if first[game].cause == BUDGET && unspent > 0 {
            grants[game] += unspent;
            results[game] = lone(games, game, grants[game], pool);
            done += results[game].expanded;
            unspent = grants[game] - results[game].expanded;
        }
    }
    Passes { first, grants, results, done }
}

/// The expansions of all results.
pub fn expanded(results: &Results) -> u64 {
    results.iter().map(|result| result.expanded).sum()
}
