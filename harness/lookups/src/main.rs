//! Times lookups in books of verdicts, by the proved library and by a plain loop in C over the same entries, in one
//! process, and counts their instructions where callgrind is installed. In no book is the pair held for who asks, an
//! arbiter or a trainer, so every entry is gone through. The library's lookup checks the record, the rule and the book
//! before that; the loop checks nothing. Prints tables for docs/SPEED.md; fails if an answer differs.
//!
//! ```text
//! lookups [ROUNDS]           both tables
//! lookups once WHAT BOOK     one run on a book, by its number, for callgrind or another profiler
//! ```

mod agree;
mod books;
mod instructions;
mod sides;
mod timing;

use agree::Agreed;
use books::{Book, Kind, KINDS};
use measure::callgrind;
use measure::program::Program;
use std::process::ExitCode;

const ROUNDS: usize = 101;

fn main() -> ExitCode {
    let choices = format!("{} BOOK, a number below {}", instructions::choices(), KINDS.len());
    Program { name: "lookups", rounds: ROUNDS, choices, tables, once: instructions::once }.run()
}

fn tables(rounds: usize) -> Result<(), String> {
    let books: Vec<(&Kind, Book)> = KINDS.iter().map(|kind| (kind, kind.book())).collect();
    let mut agreed = Agreed::default();
    books.iter().try_for_each(|(kind, book)| agreed.of_a_book(book).map_err(|m| format!("{}: {}", kind.name, m)))?;
    agreed.of_small_books()?;
    println!("Both agree on {} questions, {} of them held. {} rounds.\n", agreed.asked, agreed.held, rounds);
    time_table(&books, rounds)?;
    println!();
    instruction_table()
}

fn time_table(books: &[(&Kind, Book)], rounds: usize) -> Result<(), String> {
    println!("| book | entries | a lookup, ns: ours, C | millions of entries a second: ours, C | ratio |");
    println!("|---|---|---|---|---|");
    books.iter().try_for_each(|(kind, book)| time_row(kind, book, rounds).map(|row| println!("{}", row)))
}

fn time_row(kind: &Kind, book: &Book, rounds: usize) -> Result<String, String> {
    let times = timing::time(book, rounds)?;
    let [ours, plain] = times.each;
    let start = format!("| {} | {} | {:.0}, {:.0}", kind.name, kind.entries, ours, plain);
    if kind.entries == 0 {
        return Ok(format!("{} | - | - |", start));
    }
    let millions = times.each.map(|ns| 1e3 * kind.entries as f64 / ns);
    Ok(format!("{} | {:.0}, {:.0} | {} |", start, millions[0], millions[1], times.ratio))
}

/// An entry's instructions are those of the lookup, less those of one in the book without entries, which comes first.
fn instruction_table() -> Result<(), String> {
    let mut checks = None;
    let row = |(number, kind): (usize, &Kind)| {
        let each = instructions::a_lookup(number)?;
        let least = *checks.get_or_insert(each);
        let start = format!("| {} | {} | {:.0}, {:.0}", kind.name, kind.entries, each[0], each[1]);
        if kind.entries == 0 {
            return Ok(format!("{} | - |", start));
        }
        let entry = [0, 1].map(|side| (each[side] - least[side]) / kind.entries as f64);
        Ok(format!("{} | {:.1}, {:.1} |", start, entry[0], entry[1]))
    };
    let head = "| instructions | entries | a lookup: ours, C | an entry: ours, C |\n|---|---|---|---|";
    callgrind::table(head, instructions::of_books().map(row))
}
