//! Times the proved library and the original on the same searches, in one process, and counts their
//! instructions where callgrind is installed. Prints tables for docs/SPEED.md; fails if any of the nine
//! fields differs.
//!
//! ```text
//! bench [ROUNDS]                              both tables
//! bench once original|ours|neither SEARCH     one search, for callgrind or another profiler
//! ```

mod instructions;
mod memory;
mod searches;
mod sides;
mod timing;

use measure::callgrind;
use measure::program::Program;
use searches::{Search, COUNTED, POOL_WORDS, TIMED};
use std::process::ExitCode;
use timing::Outcome;

const ROUNDS: usize = 5;

fn main() -> ExitCode {
    let choices = "original|ours|neither E|E-large|M1|M2|M4".to_string();
    Program { name: "bench", rounds: ROUNDS, choices, tables, once: instructions::once }.run()
}

fn tables(rounds: usize) -> Result<(), String> {
    let mut pool = vec![0u32; POOL_WORDS];
    pool.fill(0xA5A5_A5A5);
    println!(
        "| search | expansions | rounds | Rust ms: new, kept | ours ms: fresh, touched | fresh | touched | kept |"
    );
    println!("|---|---|---|---|---|---|---|---|");
    let mut faults = Vec::new();
    for search in &TIMED {
        let outcome = timing::time(search, rounds * search.times, &mut pool)?;
        println!("{}", row(search, &outcome));
        faults.push(format!("{} {:.0?}", search.name, outcome.faults));
    }
    println!("\nPages given by the system, same order: {}.\n", faults.join("; "));
    drop(pool);
    instruction_table()
}

fn row(search: &Search, o: &Outcome) -> String {
    let [new, kept, fresh, touched] = o.seconds.map(|s| 1000.0 * s);
    format!(
        "| {}: {} | {} | {} | {:.0}, {:.0} | {:.0}, {:.0} | {} | {} | {} |",
        search.name, search.what, o.fields.expanded, o.rounds, new, kept, fresh, touched, o.fresh, o.touched, o.kept
    )
}

fn instruction_table() -> Result<(), String> {
    let row = |search: &Search| {
        let [theirs, ours] = instructions::an_expansion(search)?;
        Ok(format!("| {}, {} expansions | {:.0} | {:.0} |", search.name, ours.expanded, theirs.each, ours.each))
    };
    callgrind::table("| instructions an expansion | Rust | ours |\n|---|---|---|", COUNTED.iter().map(row))
}
