//! Instructions of lookups, counted by callgrind in processes of their own.

use crate::books::{Kind, KINDS};
use crate::sides::{run, run_without_lookups, Side};
use measure::callgrind::counted;

/// A process asks every question of a book so many times.
const PASSES: usize = 10;
/// A larger book takes long to make under callgrind, and an entry of it takes what one of a smaller book does.
const MOST: usize = 5_000;

const NEITHER: &str = "neither";
/// Ours and the loop.
const BOTH: [&str; 2] = ["ours", "loop"];
const ASKED: [(&str, Option<Side>); 3] = [(NEITHER, None), (BOTH[0], Some(Side::Ours)), (BOTH[1], Some(Side::Plain))];

/// What can be asked for, as a usage message has it.
pub fn choices() -> String {
    ASKED.map(|(choice, _)| choice).join("|")
}

/// The one run of a process under callgrind or another profiler, on the book of this number.
pub fn once(choice: &str, number: &str) -> Option<()> {
    let (_, asked) = ASKED.iter().find(|(name, _)| *name == choice)?;
    let book = number.parse().ok().and_then(|at: usize| KINDS.get(at))?.book();
    match asked {
        None => run_without_lookups(&book, PASSES),
        Some(side) => run(*side, &book, PASSES),
    }
    println!("{}", book.questions.len() * PASSES);
    Some(())
}

/// The books whose lookups are counted, by their numbers.
pub fn of_books() -> impl Iterator<Item = (usize, &'static Kind)> {
    KINDS.iter().enumerate().filter(|(_, kind)| kind.entries <= MOST)
}

/// Instructions a lookup in the book of this number: ours and the loop's.
pub fn a_lookup(number: usize) -> Result<[f64; 2], String> {
    let number = number.to_string();
    let once = |choice: &str| counted(&["once", choice, &number]);
    let (empty, asked) = once(NEITHER)?;
    let asked: f64 = asked.parse().map_err(|_| format!("no number of lookups: {}", asked))?;
    let each = |choice: &str| once(choice).map(|(all, _)| (all - empty) / asked);
    Ok([each(BOTH[0])?, each(BOTH[1])?])
}
