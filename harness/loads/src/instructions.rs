//! Instructions of loading, counted by callgrind in processes of their own.

use crate::exports::{self, Part, Way};
use crate::groups::{Group, GROUPS};
use measure::callgrind::counted;

/// A process asks every record of a group so many times.
const PASSES: usize = 10;

/// What a process is asked to run: nothing, or one part in one way.
type Asked = Option<(Part, Way)>;

const NEITHER: &str = "neither";
/// Bit by bit and from the words.
const CELLS: [&str; 2] = ["cells-bits", "cells-words"];
const LOAD: [&str; 2] = ["load-bits", "load-words"];
const ASKED: [(&str, Asked); 5] = [
    (NEITHER, None),
    (CELLS[0], Some((Part::Cells, Way::Bits))),
    (CELLS[1], Some((Part::Cells, Way::Words))),
    (LOAD[0], Some((Part::Load, Way::Bits))),
    (LOAD[1], Some((Part::Load, Way::Words))),
];

/// What can be asked for, as a usage message has it.
pub fn choices() -> String {
    ASKED.map(|(choice, _)| choice).join("|")
}

/// The one run of a process under callgrind or another profiler, on the group of this number.
pub fn once(choice: &str, number: &str) -> Option<()> {
    let (_, asked) = ASKED.iter().find(|(name, _)| *name == choice)?;
    let group = number.parse().ok().and_then(|at: usize| GROUPS.get(at))?;
    let records = group.records();
    match asked {
        None => exports::run_without_calls(&records, PASSES),
        Some((part, way)) => exports::run(*part, *way, &records, PASSES),
    }
    println!("{}", records.len() * PASSES);
    Some(())
}

/// Instructions a record of the group, which has this number, bit by bit and from the words: of its cells, if it has
/// any, and of a load.
pub fn a_record(number: usize, group: &Group) -> Result<(Option<[f64; 2]>, [f64; 2]), String> {
    let number = number.to_string();
    let once = |choice: &str| counted(&["once", choice, &number]);
    let (empty, asked) = once(NEITHER)?;
    let asked: f64 = asked.parse().map_err(|_| format!("no number of records: {}", asked))?;
    let each = |choice: &str| once(choice).map(|(all, _)| (all - empty) / asked);
    let both = |[bits, words]: [&str; 2]| Ok::<_, String>([each(bits)?, each(words)?]);
    let cells = if group.has_cells() { Some(both(CELLS)?) } else { None };
    Ok((cells, both(LOAD)?))
}
