//! A tally of answers by what they are, so that the run shows what it covered.

use calls::{Answer, Call, Fields, Report, Stay};
use oracle::Ending;
use std::collections::BTreeMap;

pub type Tally = BTreeMap<String, u64>;

/// What a call was and how it was answered; `count` is the book's before it.
pub fn kind(call: &Call, answer: &Answer, count: u64) -> String {
    let outcome = match answer {
        Answer::Refused { number, .. } => format!("refused {:>2}", number),
        Answer::Search(fields) => format!("{:?}, cause {}", fields.verdict, fields.cause),
        Answer::Full(verdict, first, second) => {
            format!("{}, causes {} and {}", verdict.name(), first.cause, second.cause)
        }
        Answer::Moves(moves) if moves.is_empty() => "none".to_string(),
        Answer::Moves(_) | Answer::Record(_) => "answered".to_string(),
        Answer::Value(_) | Answer::Found(_) | Answer::Published(_) => answer.to_string(),
        Answer::Opening { .. } => how_it_ended(call),
        Answer::Games(results) => how_far_they_went(call, results),
        Answer::Simulated(report) => how_games_ended(report),
        Answer::Added { verdict, count: after } => {
            format!("{:?}, {}", verdict, if *after > count { "stored" } else { "not stored" })
        }
        Answer::Ok | Answer::Book(_) => "done".to_string(),
    };
    format!("{:<33}  {}", name(call), outcome)
}

/// The word that the call's line starts with, and those up to who calls of a book's line; then whether it searches with
/// a margin.
fn name(call: &Call) -> String {
    let name = match call {
        Call::Book(line) => format!("{} {}", call.kind().name(), line.name()),
        _ => call.kind().name().to_string(),
    };
    match call.stay() {
        None | Some(Stay::Off) => name,
        Some(stay) if stay.is_refused() => format!("{}, no margin", name),
        Some(_) => format!("{}, margin", name),
    }
}

/// What ended the opening of two sheets.
fn how_it_ended(call: &Call) -> String {
    let Call::Sheets { first, second, .. } = call else { unreachable!("no other call has an opening") };
    match oracle::ending(first, second) {
        Ending::BothEnd => "both end".to_string(),
        Ending::FirstEnds => "the first ends".to_string(),
        Ending::SecondEnds => "the second ends".to_string(),
        Ending::Difference => "they differ".to_string(),
        Ending::Error(number) => format!("error {} on both", number),
    }
}

/// How many games there were, and how many of them took more expansions than their shares.
fn how_far_they_went(call: &Call, results: &[Fields]) -> String {
    let Call::Games(games) = call else { unreachable!("no other call has games") };
    let further = match results.iter().zip(games.shares).filter(|(result, share)| result.expanded > *share).count() {
        0 => "none",
        1 => "one",
        _ => "several",
    };
    format!("games: {}, past their shares: {}", results.len(), further)
}

/// Which ends the games of simulated players had, and whether anything was expanded.
fn how_games_ended(report: &Report) -> String {
    let Report { x_wins, o_wins, draws, expanded } = *report;
    let ends = [("X wins", x_wins), ("O wins", o_wins), ("draws", draws)];
    let seen: Vec<&str> = ends.into_iter().filter(|(_, games)| *games > 0).map(|(end, _)| end).collect();
    format!("{}{}", seen.join(", "), if expanded > 0 { "" } else { "; no expansion" })
}
