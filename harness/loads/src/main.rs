//! Times both readings of records, from three words and bit by bit, in one process, and counts their instructions
//! where callgrind is installed: the cells alone, and a whole load with its checks. Both are proved; they come from
//! libload_bench.a. Prints tables for docs/SPEED.md; fails if an answer differs from the other way's or from the
//! one that is due.
//!
//! ```text
//! loads [ROUNDS]             both tables
//! loads once WHAT GROUP      one run on a group, by its number, for callgrind or another profiler
//! ```

mod agree;
mod exports;
mod groups;
mod instructions;
mod timing;

use exports::Part;
use groups::{Group, GROUPS};
use measure::callgrind;
use measure::program::Program;
use std::process::ExitCode;

const ROUNDS: usize = 25;
/// Two columns of either table for a group without cells.
const NO_CELLS: &str = "- | -";

fn main() -> ExitCode {
    let choices = format!("{} GROUP, a number below {}", instructions::choices(), GROUPS.len());
    Program { name: "loads", rounds: ROUNDS, choices, tables, once: instructions::once }.run()
}

fn tables(rounds: usize) -> Result<(), String> {
    let groups: Vec<(&Group, Vec<Vec<u8>>)> = GROUPS.iter().map(|group| (group, group.records())).collect();
    groups.iter().try_for_each(|(group, records)| agree::of_a_group(group, records))?;
    let others = agree::of_others()?;
    println!("Both ways agree on all records of the groups and on {} others. {} rounds.\n", others, rounds);
    time_table(&groups, rounds)?;
    println!();
    instruction_table()
}

fn time_table(groups: &[(&Group, Vec<Vec<u8>>)], rounds: usize) -> Result<(), String> {
    println!(
        "| records | different ones | cells, ns: bit by bit, words | ratio | load, ns: bit by bit, words | ratio |"
    );
    println!("|---|---|---|---|---|---|");
    for (group, records) in groups {
        let cells = if group.has_cells() { times(Part::Cells, records, rounds)? } else { NO_CELLS.to_string() };
        let load = times(Part::Load, records, rounds)?;
        println!("| {} | {} | {} | {} |", group.name, records.len(), cells, load);
    }
    Ok(())
}

/// Two columns of the first table.
fn times(part: Part, records: &[Vec<u8>], rounds: usize) -> Result<String, String> {
    let times = timing::time(part, records, rounds)?;
    Ok(format!("{:.0}, {:.0} | {}", times.each[0], times.each[1], times.ratio))
}

fn instruction_table() -> Result<(), String> {
    let row = |(number, group): (usize, &Group)| {
        let (cells, load) = instructions::a_record(number, group)?;
        Ok(format!("| {} | {} | {} |", group.name, cells.map_or(NO_CELLS.to_string(), counts), counts(load)))
    };
    let head = "| instructions a record | cells: bit by bit, words | ratio | load: bit by bit, words | ratio |\n|---|---|---|---|---|";
    callgrind::table(head, GROUPS.iter().enumerate().map(row))
}

/// Two columns of the second table.
fn counts([bits, words]: [f64; 2]) -> String {
    format!("{:.0}, {:.0} | **{:.1}**", bits, words, bits / words)
}
