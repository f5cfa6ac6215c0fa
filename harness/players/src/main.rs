//! Times a thousand games of simulated players of the proved library, from the empty game and from a middle game, and
//! prints a table for docs/SPEED.md. How many positions are searched is counted by the oracle's own players, over the
//! original's searches; it fails if their report is another one.
//!
//! ```text
//! players [ROUNDS]            the table
//! players once START X,O      one call, for callgrind or another profiler: where the games begin, and both budgets
//! ```

mod seasons;

use calls::{Report, Simulation};
use measure::by_turns;
use measure::program::Program;
use measure::spread;
use oracle::players::{played, Played};
use seasons::{season, BUDGETS, POOL_WORDS, STARTS};
use std::process::ExitCode;
use std::time::Instant;
use uttt::{ffi, players::report};

const ROUNDS: usize = 5;

fn main() -> ExitCode {
    let choices = format!("{} X,O", STARTS.map(|(name, _)| name).join("|"));
    Program { name: "players", rounds: ROUNDS, choices, tables, once }.run()
}

fn once(start: &str, budgets: &str) -> Option<()> {
    let (_, played) = STARTS.iter().find(|(name, _)| *name == start)?;
    let (x, o) = budgets.split_once(',')?;
    let budgets = [x.parse().ok()?, o.parse().ok()?];
    println!("{}", simulate(&season(*played, budgets), &mut vec![0; POOL_WORDS]));
    Some(())
}

fn simulate(call: &Simulation, pool: &mut [u32]) -> Report {
    let Simulation { record, seed, games, limit, interval, budgets: [x, o], stay, .. } = call;
    let (from, bytes, to, length) = (record.as_ptr(), record.len(), pool.as_mut_ptr(), pool.len());
    let (staying, margin) = stay.passed(0.0);
    // SAFETY: pointers and lengths belong together, and the buffers are apart.
    let answer = unsafe {
        ffi::uttt_simulate(from, bytes, to, length, *seed, *games, *limit, *x, *o, *interval, staying, margin)
    };
    assert_eq!((answer.code, answer.index), (0, 0), "the games were refused");
    report(&answer)
}

/// A thousand games: where they begin, both budgets, what is due, and the seconds of the call, a median.
struct Row {
    start: &'static str,
    budgets: [u64; 2],
    due: Played,
    seconds: f64,
}

fn tables(rounds: usize) -> Result<(), String> {
    let mut pool = vec![0xA5A5_A5A5; POOL_WORDS];
    println!("1,000 games by one call; every report is that of the oracle's players. {} rounds.\n", rounds);
    println!(
        "| from | budgets: X, O | X wins, O wins, draws | searches | expansions | seconds \
         | games a second | searches a second | expansions a second |\n|---|---|---|---|---|---|---|---|---|"
    );
    for ((start, played), budgets) in STARTS.iter().flat_map(|start| BUDGETS.map(|budgets| (start, budgets))) {
        let (due, seconds) = time(&season(*played, budgets), rounds, &mut pool)
            .map_err(|wrong| format!("{} with {:?}: {}", start, budgets, wrong))?;
        println!("{}", row(&Row { start, budgets, due, seconds }));
    }
    Ok(())
}

/// What is due, and the seconds of the call.
fn time(call: &Simulation, rounds: usize, pool: &mut [u32]) -> Result<(Played, f64), String> {
    let due = played(call);
    let seconds = by_turns(rounds, &[()], |()| {
        let start = Instant::now();
        let report = simulate(call, pool);
        let seconds = start.elapsed().as_secs_f64();
        let wrong = || format!("{}\noracle: {}", report, due.report);
        (report == due.report).then_some(seconds).ok_or_else(wrong)
    })?;
    Ok((due, spread(seconds.concat()).1))
}

fn row(Row { start, budgets: [x, o], due: Played { report, searches }, seconds }: &Row) -> String {
    let Report { x_wins, o_wins, draws, expanded } = *report;
    let a_second = |number: u64| number as f64 / seconds;
    let wins = format!("| {} | {}, {} | {}, {}, {} ", start, x, o, x_wins, o_wins, draws);
    let rates = [x_wins + o_wins + draws, *searches, expanded].map(|number| format!("{:.0}", a_second(number)));
    format!("{}| {} | {} | {:.2} | {} |", wins, searches, expanded, seconds, rates.join(" | "))
}
