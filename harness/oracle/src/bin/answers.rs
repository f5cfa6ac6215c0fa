//! The oracle's answers as lines of text.
//!
//! ```text
//! answers                              reads calls, one a line, and prints their answers
//! answers list SEED COUNT [CALL...]    prints COUNT calls with their answers, `CALL => ANSWER`,
//!                                      after those of cases.txt; only the calls named, if any, and
//!                                      none whose pool or book is larger than `vectors` lends. A
//!                                      list of a book's lines counts as one call
//! ```

use calls::book::ENTRY;
use calls::{Book, BookCall, Call, Games, Kind, Simulation};
use oracle::generate::{self, Random};
use std::io::{self, BufWriter, Write};
use std::process::ExitCode;

/// The most nodes of a pool and bytes of a book that crates/vectors lends.
const STORED_NODES: u64 = 4_096;
const STORED_BOOK: usize = 1_100;

fn main() -> ExitCode {
    let arguments: Vec<String> = std::env::args().skip(1).collect();
    let words: Vec<&str> = arguments.iter().map(String::as_str).collect();
    let done = match words.as_slice() {
        [] => calls::tool::answer_lines(|call, book| Ok(oracle::answer(call, book))),
        ["list", seed, count, names @ ..] => match (seed.parse(), count.parse(), kinds(names)) {
            (Ok(seed), Ok(count), Some(kinds)) => list(seed, count, &kinds).map(|()| 0),
            _ => return usage(),
        },
        _ => return usage(),
    };
    match done {
        Ok(0) => ExitCode::SUCCESS,
        Ok(_) => ExitCode::FAILURE,
        Err(error) => {
            eprintln!("answers: {}", error);
            ExitCode::FAILURE
        }
    }
}

fn usage() -> ExitCode {
    let names: Vec<&str> = Kind::ALL.iter().map(|k| k.name()).collect();
    eprintln!("usage: answers < CALLS | answers list SEED COUNT [CALL...], CALL one of {}", names.join(", "));
    ExitCode::FAILURE
}

fn kinds(names: &[&str]) -> Option<Vec<Kind>> {
    if names.is_empty() {
        return Some(Kind::ALL.to_vec());
    }
    names.iter().map(|name| Kind::named(name)).collect()
}

fn list(seed: u64, count: usize, kinds: &[Kind]) -> io::Result<()> {
    let mut out = BufWriter::new(io::stdout().lock());
    let cases = oracle::cases::lists().into_iter().filter(|list| list.iter().all(|call| kinds.contains(&call.kind())));
    let mut random = Random::new(seed);
    let generated = std::iter::repeat_with(|| generate::any_list(&mut random, kinds)).filter(|list| is_stored(list));
    for list in cases.filter(|list| is_stored(list)).chain(generated.take(count)) {
        show(&mut out, &list)?;
    }
    out.flush()
}

/// The lines of a list with their answers.
fn show(out: &mut impl Write, list: &[Call]) -> io::Result<()> {
    let mut book = Book::default();
    list.iter().try_for_each(|call| writeln!(out, "{} => {}", call, oracle::answer(call, &mut book)))
}

fn is_stored(list: &[Call]) -> bool {
    list.iter().all(|call| match call {
        Call::Search { pool, .. }
        | Call::Full { pool, .. }
        | Call::Book(BookCall::Add { pool, .. })
        | Call::Games(Games { pool, .. })
        | Call::Simulate(Simulation { pool, .. }) => *pool <= STORED_NODES,
        Call::Book(BookCall::New { entries }) => ENTRY * entries <= STORED_BOOK,
        Call::Book(BookCall::Set(book)) => book.bytes.len() <= STORED_BOOK,
        Call::Moves { .. } | Call::Replay { .. } | Call::Referee { .. } | Call::Sheets { .. } | Call::Book(_) => true,
    })
}
