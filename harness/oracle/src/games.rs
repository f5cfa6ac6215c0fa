//! Games that are judged together. The original has no such call, so the two passes are written here a second time,
//! plainly and apart from the proved code, over the original's searches. No search is taken up again: a game that goes
//! on in the second pass is searched anew, from its start.

use crate::answer::search;
use calls::record::LENGTH;
use calls::table::games_refusal;
use calls::{Answer, Fields, Games};

/// The cause of a spent budget.
const BUDGET: u64 = 1;

pub fn answer(call: &Games) -> Answer {
    match games_refusal(call) {
        Some((number, index)) => Answer::Refused { number, index },
        None => Answer::Games(judge(call)),
    }
}

/// The results of a call that no check refuses.
fn judge(call: &Games) -> Vec<Fields> {
    let mut results: Vec<Fields> = (0..call.count()).map(|game| lone(call, game, call.shares[game])).collect();
    let mut unspent = call.allowance - results.iter().map(|result| result.expanded).sum::<u64>();
    for (game, result) in results.iter_mut().enumerate().filter(|(_, result)| result.cause == BUDGET) {
        let granted = call.shares[game] + unspent;
        *result = lone(call, game, granted);
        unspent = granted - result.expanded;
    }
    results
}

/// The search of one game with its part of the pool and a budget of its own.
pub fn lone(call: &Games, game: usize, budget: u64) -> Fields {
    let record = call.records[LENGTH * game..LENGTH * (game + 1)].try_into().expect("a record's bytes");
    search(record, call.rule, call.part(), call.limit, budget, call.interval, call.stay)
}
