//! Solves the same endings by the proved library with staying on a line off and with margins, in one process, and prints
//! what each setting takes: a table for docs/SPEED.md. Fails if any of the nine fields is not the original's, or if two
//! settings give two verdicts.
//!
//! ```text
//! stays [ROUNDS]              the table
//! stays once SETTING SEED     one search, for callgrind or another profiler
//! ```

mod endings;
mod solving;

use endings::{BUDGET, POOL_WORDS, SEEDS, SETTINGS};
use measure::program::Program;
use measure::spread;
use solving::Solved;
use std::process::ExitCode;

const ROUNDS: usize = 3;

/// An ending with each of the settings.
type Ending = [Solved; SETTINGS.len()];

fn main() -> ExitCode {
    let choices = format!("{} SEED", SETTINGS.map(|(name, _)| name).join("|"));
    Program { name: "stays", rounds: ROUNDS, choices, tables, once }.run()
}

fn once(setting: &str, seed: &str) -> Option<()> {
    let (_, stay) = SETTINGS.iter().find(|(name, _)| *name == setting)?;
    println!("{}", solving::search(seed.parse().ok()?, *stay, &mut vec![0; POOL_WORDS]));
    Some(())
}

fn tables(rounds: usize) -> Result<(), String> {
    let mut pool = vec![0u32; POOL_WORDS];
    pool.fill(0xA5A5_A5A5);
    let all = SEEDS.iter().map(|seed| solving::solve(*seed, rounds, &mut pool)).collect::<Result<Vec<Ending>, _>>()?;
    let by_all = all.iter().filter(|ending| ending.iter().all(Solved::is_solved)).count();
    println!(
        "{} endings, up to {} expansions each; {} are solved with every setting. {} rounds.\n",
        all.len(),
        BUDGET,
        by_all,
        rounds
    );
    print!("| staying | solved | expansions: all, of those that every setting solves | nodes made: all, of those ");
    println!(
        "| ms: all, of those | fewest expansions | expansions over those with off |\n|---|---|---|---|---|---|---|"
    );
    (0..SETTINGS.len()).for_each(|at| println!("{}", row(&all, at)));
    Ok(())
}

/// What one setting takes. An ending that it does not solve counts with what the search took until it ended.
fn row(all: &[Ending], at: usize) -> String {
    let solved = all.iter().filter(|ending| ending[at].is_solved()).count();
    let common = || all.iter().filter(|ending| ending.iter().all(Solved::is_solved));
    let expanded = |ending: &Ending| ending[at].fields.expanded;
    let made = |ending: &Ending| ending[at].fields.allocated;
    let fewest = all.iter().filter(|ending| ending[at].is_solved() && is_fewest(ending, at)).count();
    let over_off = spread(common().map(|ending| expanded(ending) as f64 / ending[0].fields.expanded as f64).collect());
    format!(
        "| {} | {} | {}, {} | {}, {} | {:.0}, {:.0} | {} | {:.2} |",
        SETTINGS[at].0,
        solved,
        all.iter().map(expanded).sum::<u64>(),
        common().map(expanded).sum::<u64>(),
        all.iter().map(made).sum::<u64>(),
        common().map(made).sum::<u64>(),
        all.iter().map(|ending| ending[at].time).sum::<f64>(),
        common().map(|ending| ending[at].time).sum::<f64>(),
        fewest,
        over_off
    )
}

/// No other setting solves it with fewer expansions.
fn is_fewest(ending: &Ending, at: usize) -> bool {
    let solved = ending.iter().filter(|solved| solved.is_solved());
    solved.map(|solved| solved.fields.expanded).min() == Some(ending[at].fields.expanded)
}
