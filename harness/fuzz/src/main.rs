//! The exports of the proved library on random and damaged bytes. Every buffer stands between pages that can't
//! be touched, once with its end and once with its start at one; what is lent to be read can't be written; pools
//! and outputs hold other words each time. Every answer must be one that docs/MANUAL.md allows for the call, and
//! the same each time. The first violation is printed with its call, as lines that `uttt` reads, and fails.
//!
//! ```text
//! fuzz [SEED [COUNT [SECONDS]]]    records that try free choice, then up to COUNT calls, for up to so many seconds, then
//!                                  records that try every place
//! fuzz wrong                       libraries with one thing wrong: each must be caught
//! fuzz wrong NUMBER                one of those
//! ```

mod book_calls;
mod books;
mod checks;
mod exports;
mod filling;
mod game_calls;
mod games;
mod guarded;
mod inputs;
mod passes;
mod player_calls;
mod players;
mod record_calls;
mod run;
mod search_calls;
mod watch;
mod wide;
mod wrong;
mod wrong_books;
mod wrong_budgets;
mod wrong_choices;
mod wrong_game_choices;
mod wrong_games;
mod wrong_marks;
mod wrong_players;
mod wrong_stay;
mod wrong_turns;

use calls::{Book, Call};
use exports::{Exports, LIBRARY};
use guarded::Edge;
use oracle::generate::{choices, reading, Random};
use run::{Answered, Lender};
use std::collections::BTreeMap;
use std::process::{Command, ExitCode};
use std::time::{Duration, Instant};

const CALLS: u64 = 100_000;
const SECONDS: u64 = 60;
/// A call that takes longer has not returned; a wrong library is given less.
const A_CALL: u32 = 60;
const A_WRONG_CALL: u32 = 2;
const WRONG_CALLS: u64 = 12_000;

/// How many calls gave each kind of answer.
type Tally = BTreeMap<String, u64>;

fn main() -> ExitCode {
    let arguments: Vec<String> = std::env::args().skip(1).collect();
    let words: Vec<&str> = arguments.iter().map(String::as_str).collect();
    if let ["wrong"] = words.as_slice() {
        return all_wrong();
    }
    if let ["wrong", number] = words.as_slice() {
        let Some((_, exports)) = number.parse().ok().and_then(|at: usize| wrong_libraries().nth(at)) else {
            return usage();
        };
        return fuzz(&exports, 1, WRONG_CALLS, SECONDS, A_WRONG_CALL);
    }
    let numbers: Option<Vec<u64>> = words.iter().map(|w| w.parse().ok()).collect();
    match numbers.as_deref() {
        Some([]) => fuzz(&LIBRARY, 1, CALLS, SECONDS, A_CALL),
        Some([seed]) => fuzz(&LIBRARY, *seed, CALLS, SECONDS, A_CALL),
        Some([seed, count]) => fuzz(&LIBRARY, *seed, *count, SECONDS, A_CALL),
        Some([seed, count, seconds]) => fuzz(&LIBRARY, *seed, *count, *seconds, A_CALL),
        _ => usage(),
    }
}

fn usage() -> ExitCode {
    eprintln!("usage: fuzz [SEED [COUNT [SECONDS]]] | fuzz wrong [NUMBER below {}]", wrong_libraries().count());
    ExitCode::FAILURE
}

/// What is wrong with each, and its exports.
fn wrong_libraries() -> impl Iterator<Item = (&'static str, Exports)> {
    let of_books = wrong_books::ALL.into_iter().chain(wrong_marks::ALL);
    let of_games = wrong_games::ALL.into_iter().chain(wrong_stay::ALL).chain(wrong_budgets::ALL);
    let of_choices = wrong_choices::ALL.into_iter().chain(wrong_game_choices::ALL);
    let of_players = wrong_players::ALL.into_iter().chain(wrong_turns::ALL);
    wrong::ALL.into_iter().chain(of_books).chain(of_games).chain(of_choices).chain(of_players)
}

/// Runs every wrong library in a process of its own; each must end with a violation.
fn all_wrong() -> ExitCode {
    let mut missed = 0;
    for (number, (what, _)) in wrong_libraries().enumerate() {
        let program = std::env::current_exe().expect("this program has a path");
        let run = Command::new(program).arg("wrong").arg(number.to_string()).output().expect("it runs again");
        let told = String::from_utf8_lossy(&run.stderr);
        match told.lines().find_map(|line| line.strip_prefix("violation: ")) {
            Some(message) if run.status.code() == Some(1) => println!("caught: {}: {}", what, message),
            _ => {
                println!("not caught: {}", what);
                missed += 1;
            }
        }
    }
    let all = wrong_libraries().count();
    println!("{} wrong libraries, {} caught", all, all - missed);
    if missed == 0 {
        ExitCode::SUCCESS
    } else {
        ExitCode::FAILURE
    }
}

fn fuzz(exports: &Exports, seed: u64, count: u64, seconds: u64, a_call: u32) -> ExitCode {
    watch::install();
    let mut tally = Tally::new();
    let mut lender = Lender::new(*exports, a_call);
    let tried = calls_of_free_choice(&mut lender, seed, &mut tally)
        .and_then(|()| calls_at_random(&mut lender, seed, count, Duration::from_secs(seconds), &mut tally))
        .and_then(|()| calls_place_by_place(&mut lender, seed, &mut tally))
        .and_then(|()| wide::check(exports, a_call));
    match tried {
        Err(message) => {
            eprintln!("violation: {}", message);
            ExitCode::FAILURE
        }
        Ok(wide) => {
            println!("{} calls in order (seed {})", tally.values().sum::<u64>(), seed);
            tally.iter().for_each(|(kind, times)| println!("{:>9}  {}", times, kind));
            match wide {
                Some(wide) => println!("{:>9}  with a length, a count, a budget or games of 4294967296 or more", wide),
                None => println!("no buffer longer than 4294967296 was lent: the system has not so many addresses"),
            }
            ExitCode::SUCCESS
        }
    }
}

/// The records that try free choice.
fn calls_of_free_choice(lender: &mut Lender, seed: u64, tally: &mut Tally) -> Result<(), String> {
    let mut random = Random::new(seed);
    let lists = choices::lists(&mut random);
    lists.iter().try_for_each(|list| tallied(lender, list, &mut random, tally))
}

/// So many calls beside those that were made before.
fn calls_at_random(
    lender: &mut Lender,
    seed: u64,
    count: u64,
    time: Duration,
    tally: &mut Tally,
) -> Result<(), String> {
    let start = Instant::now();
    let mut random = Random::new(seed);
    let all = tally.values().sum::<u64>() + count;
    while tally.values().sum::<u64>() < all && start.elapsed() <= time {
        tallied(lender, &inputs::list(&mut random), &mut random, tally)?;
    }
    Ok(())
}

/// The records that try loading place by place.
fn calls_place_by_place(lender: &mut Lender, seed: u64, tally: &mut Tally) -> Result<(), String> {
    let mut random = Random::new(seed);
    let records = reading::records(&mut random);
    let mut lists = records.iter().flat_map(|record| reading::lists_of(record));
    lists.try_for_each(|list| tallied(lender, &list, &mut random, tally))
}

/// The calls of a list, a book kept between them. What a tool does itself is no call.
fn tallied(lender: &mut Lender, list: &[Call], random: &mut Random, tally: &mut Tally) -> Result<(), String> {
    let mut book = Book::default();
    for call in list {
        if matches!(call, Call::Book(line) if line.by_the_tool(&mut book).is_some()) {
            continue;
        }
        let line = books::lines(call, &book);
        let answered = one(lender, call, &book, &line, random).map_err(|m| format!("{}\n  call: {}", m, line))?;
        *tally.entry(kind(call, &answered)).or_default() += 1;
        if let Call::Book(_) = call {
            books::take_over(&mut book, answered);
        }
    }
    Ok(())
}

/// The call with its buffers at either edge: both answers are allowed, and the same but for what the output
/// held and still holds.
fn one(lender: &mut Lender, call: &Call, book: &Book, line: &str, random: &mut Random) -> Result<Answered, String> {
    let mut answer = |edge| {
        let a = lender.answer(call, book, line, edge, random)?;
        checks::check(call, book, &a).map(|()| a)
    };
    let (first, second) = (answer(Edge::End)?, answer(Edge::Start)?);
    let written = checks::written(call, &first);
    let seen = |a: &Answered| (a.code, a.index, a.numbers.clone(), a.output[..written.min(a.output.len())].to_vec());
    if seen(&first) != seen(&second) {
        return Err(format!("with other words in the buffers {:?}, not {:?}", seen(&second), seen(&first)));
    }
    Ok(first)
}

fn kind(call: &Call, a: &Answered) -> String {
    let outcome = match call {
        _ if a.code != 0 => format!("refused {:>2}", a.code),
        Call::Search { .. } => format!("verdict {}, cause {}", a.numbers[0], a.numbers[8]),
        Call::Full { .. } => format!("verdict {}, causes {} and {}", a.numbers[0], a.numbers[9], a.numbers[18]),
        Call::Referee { .. } => format!("value {}", a.numbers[0]),
        Call::Book(line) => books::outcome(line, a),
        Call::Games(_) => format!("games: {}", a.numbers[0]),
        Call::Simulate(call) if call.is_finished() => "a game that is over".to_string(),
        Call::Moves { .. } | Call::Sheets { .. } if a.numbers[0] == 0 => "none".to_string(),
        _ => "answered".to_string(),
    };
    let name = match call {
        Call::Book(line) => line.name(),
        call => call.kind().name().to_string(),
    };
    format!("{:<15}  {}", name, outcome)
}
