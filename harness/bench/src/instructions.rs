//! Instructions of a search, counted by callgrind in a process of its own.

use crate::searches::{Search, COUNTED, TIMED};
use crate::sides;
use calls::Fields;
use measure::callgrind::counted;

/// What a process is asked to run under callgrind. `Neither` does all but the search.
#[derive(Clone, Copy)]
pub enum Side {
    Neither,
    Original,
    Ours,
}

const SIDES: [(&str, Side); 3] = [("neither", Side::Neither), ("original", Side::Original), ("ours", Side::Ours)];

/// The one search of a process under callgrind or another profiler. The pool is fresh.
pub fn once(side: &str, name: &str) -> Option<()> {
    let (_, side) = SIDES.iter().find(|(word, _)| *word == side)?;
    let search = COUNTED.iter().chain(&TIMED).find(|s| s.name == name)?;
    let fields: Option<Fields> = match side {
        Side::Neither => {
            std::hint::black_box(search.record());
            None
        }
        Side::Original => Some(sides::original(search)),
        Side::Ours => Some(sides::ours_fresh(search)),
    };
    println!("{}", fields.map_or(String::new(), |f| f.to_string()));
    Some(())
}

/// How many instructions each expansion took, and how many there were.
pub struct Count {
    pub each: f64,
    pub expanded: u64,
}

/// The original's count and ours.
pub fn an_expansion(search: &Search) -> Result<[Count; 2], String> {
    let once = |side| counted(&["once", side, search.name]);
    let (empty, _) = once("neither")?;
    let (original, theirs) = once("original")?;
    let (ours, fields) = once("ours")?;
    if theirs != fields {
        return Err(format!("{}: the original gave {}, the library {}", search.name, theirs, fields));
    }
    let expanded: u64 = fields.split_whitespace().nth(7).and_then(|n| n.parse().ok()).ok_or("no fields")?;
    Ok([original, ours].map(|all| Count { each: (all - empty) / expanded as f64, expanded }))
}
