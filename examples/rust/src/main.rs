//! Adjudicates a game that was left open: reads a record, 42 hexadecimal digits, searches it and says in words what
//! best play gives. Without an argument it takes a position that X wins at once.

use std::{env, process};
use ultimattt::{full_verdict, FullResult, FullVerdict, Pool, Record, Refusal, Settings, RECORD_BYTES};

const NODES: usize = 1_000_000; // a pool of 20 MB
const BUDGET: u64 = 1_000_000;
const WON_AT_ONCE: &str = "12A000A80028051500054000000000000000000000";

/// The 21 bytes, or none if the text is not 42 hexadecimal digits.
fn read_record(text: &str) -> Option<Record> {
    let digits = text.chars().map(|c| c.to_digit(16)).collect::<Option<Vec<u32>>>()?;
    if digits.len() != 2 * RECORD_BYTES {
        return None;
    }
    Some(std::array::from_fn(|i| (16 * digits[2 * i] + digits[2 * i + 1]) as u8))
}

/// What the answer means to an arbiter and, where something is undecided, why.
fn words(answer: &FullResult, mover: char, other: char) -> String {
    let (no_win, no_draw) = (answer.first.cause, answer.second.cause);
    match answer.verdict {
        FullVerdict::Win => format!("{mover} can force a win."),
        FullVerdict::Loss => format!("{other} can force a win."),
        FullVerdict::Draw => "a draw. Neither side can force a win.".to_string(),
        FullVerdict::AtLeastDraw => {
            format!("{mover} can force at least a draw. Whether {mover} can win is undecided: {no_win}.")
        }
        FullVerdict::AtMostDraw => {
            format!("{mover} can't force a win. Whether {mover} can hold a draw is undecided: {no_draw}.")
        }
        FullVerdict::Unknown => {
            format!("undecided. Whether {mover} can win: {no_win}. Whether {mover} can hold a draw: {no_draw}.")
        }
    }
}

fn adjudicate(record: &Record) -> Result<String, Refusal> {
    let settings = Settings { budget: BUDGET, ..Settings::default() };
    let answer = full_verdict(record, &mut Pool::new(NODES)?, &settings)?;
    let (mover, other) = if record[0] >> 7 == 1 { ('O', 'X') } else { ('X', 'O') };
    Ok(format!("{mover} to move: {}", words(&answer, mover, other)))
}

fn main() {
    let text = env::args().nth(1).unwrap_or_else(|| WON_AT_ONCE.to_string());
    let Some(record) = read_record(&text) else {
        eprintln!("adjudicate: a record is 42 hexadecimal digits, this is not: {text}");
        process::exit(2);
    };
    match adjudicate(&record) {
        Ok(words) => println!("{words}"),
        Err(refusal) => {
            eprintln!("adjudicate: refused: {refusal}");
            process::exit(1);
        }
    }
}
