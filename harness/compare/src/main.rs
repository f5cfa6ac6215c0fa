//! Runs the proved library and the oracle on the same calls and compares every answer, and the
//! bytes and words that must stay untouched. The lines of a book are run as lists, each side with a book of its own.
//! A difference prints the smallest call or list found that shows it, and fails.
//!
//! ```text
//! compare [SEED [COUNT]]    the cases, then records that try every place and free choice, then COUNT calls at random
//! ```

mod shrink;
mod sides;
mod tally;

use calls::{Call, Kind};
use oracle::generate::{self, choices, reading, Random};
use sides::Sides;
use std::process::ExitCode;
use tally::Tally;

fn main() -> ExitCode {
    let arguments: Vec<Option<u64>> = std::env::args().skip(1).map(|a| a.parse().ok()).collect();
    let (seed, count) = match arguments.as_slice() {
        [] => (1, 200_000),
        [Some(seed)] => (*seed, 200_000),
        [Some(seed), Some(count)] => (*seed, *count),
        _ => {
            eprintln!("usage: compare [SEED [COUNT]]");
            return ExitCode::FAILURE;
        }
    };
    let mut tally = Tally::new();
    match first_difference(seed, count, &mut tally) {
        None => {
            println!("{} calls agree (seed {})", tally.values().sum::<u64>(), seed);
            tally.iter().for_each(|(kind, times)| println!("{:>9}  {}", times, kind));
            ExitCode::SUCCESS
        }
        Some(list) => {
            report(&shrink::smallest(list, differs));
            ExitCode::FAILURE
        }
    }
}

/// The oracle's cases, then every record that tries loading place by place or free choice, then calls at random until
/// there are `count` of them.
fn first_difference(seed: u64, count: u64, tally: &mut Tally) -> Option<Vec<Call>> {
    let records = reading::records(&mut Random::new(seed));
    let loads =
        records.iter().flat_map(|record| reading::lists_of(record)).chain(choices::lists(&mut Random::new(seed)));
    let mut random = Random::new(seed);
    let mut made = 0;
    let generated = std::iter::from_fn(|| {
        let list = (made < count).then(|| generate::any_list(&mut random, &Kind::ALL))?;
        made += list.len() as u64;
        Some(list)
    });
    oracle::cases::lists().into_iter().chain(loads).chain(generated).find(|list| differs_in(list, tally))
}

fn differs(list: &[Call]) -> bool {
    differs_in(list, &mut Tally::new())
}

/// Whether a line of the list is answered otherwise. Lines up to that one are counted.
fn differs_in(list: &[Call], tally: &mut Tally) -> bool {
    let mut sides = Sides::default();
    list.iter().any(|call| {
        let (count, library, oracle) = (sides.count(), sides.library(call), sides.oracle(call));
        *tally.entry(tally::kind(call, &oracle, count)).or_default() += 1;
        library != Ok(oracle)
    })
}

/// The lines up to the one that differs, and both answers to it.
fn report(list: &[Call]) {
    let mut sides = Sides::default();
    for call in list {
        let (library, oracle) = (sides.library(call), sides.oracle(call));
        if library.as_ref() == Ok(&oracle) {
            println!("    after: {} => {}", call, oracle);
            continue;
        }
        println!("different: {}", call);
        println!("   oracle: {}", oracle);
        println!("  library: {}", library.map_or_else(|message| message, |answer| answer.to_string()));
        return;
    }
}
