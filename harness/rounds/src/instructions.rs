//! Instructions of eight games, counted by callgrind in processes of their own.

use crate::games::{Kind, KINDS, POOL_WORDS};
use crate::sides::{again, alone, together, Budgets};
use measure::callgrind::counted;
use std::hint::black_box;

/// What can be asked for, as a usage message has it.
pub fn choices() -> String {
    format!(
        "neither|together|again GAMES | alone GAMES:GRANT,.. (eight), GAMES being {}",
        KINDS.map(|k| k.name).join("|")
    )
}

/// The one run of a process under callgrind or another profiler. The pool is fresh.
pub fn once(what: &str, which: &str) -> Option<()> {
    let (name, grants) = which.split_once(':').unwrap_or((which, ""));
    let games = KINDS.iter().find(|kind| kind.name == name)?.games();
    let mut pool = vec![0; POOL_WORDS];
    let grants = grants_of(grants);
    black_box((&games, &mut pool, &grants));
    match (what, grants) {
        ("neither", _) => (),
        ("together", _) => drop(black_box(together(&games, &mut pool))),
        ("again", _) => drop(black_box(again(&games, &mut pool))),
        ("alone", Some(grants)) => drop(black_box(alone(&games, &grants, &mut pool))),
        _ => return None,
    }
    Some(())
}

/// What eight games are granted.
fn grants_of(text: &str) -> Option<Budgets> {
    let numbers: Option<Vec<u64>> = text.split(',').map(|number| number.parse().ok()).collect();
    numbers?.try_into().ok()
}

/// All instructions of the games: together, alone with these grants, searched again.
pub fn of_games(kind: &Kind, grants: &Budgets) -> Result<[f64; 3], String> {
    let with_grants = format!("{}:{}", kind.name, grants.map(|grant| grant.to_string()).join(","));
    let once = |what: &str| counted(&["once", what, &with_grants]).map(|(all, _)| all);
    let empty = once("neither")?;
    Ok([once("together")? - empty, once("alone")? - empty, once("again")? - empty])
}
