//! Reads calls, one a line, and prints the proved library's answers; `calls::line` gives the form of
//! both. What a refusal's number stands for is said on standard error, once for each number. It fails in the end if a
//! line could not be read or answered.

use calls::{words, Answer};
use std::cell::RefCell;
use std::collections::BTreeSet;
use std::process::ExitCode;

/// Says what a refusal is, the first time that its number comes.
fn explain(answer: &Answer, said: &RefCell<BTreeSet<u32>>) {
    if let Answer::Refused { number, .. } = answer {
        if let Some(words) = words::of(*number).filter(|_| said.borrow_mut().insert(*number)) {
            eprintln!("uttt: refused {}: {}", number, words);
        }
    }
}

fn main() -> ExitCode {
    let said = RefCell::default();
    let answered = calls::tool::answer_lines(|call, book| {
        let answer = uttt::ours::answer(call, book)?;
        explain(&answer, &said);
        Ok(answer)
    });
    match answered {
        Ok(0) => ExitCode::SUCCESS,
        Ok(_) => ExitCode::FAILURE,
        Err(error) => {
            eprintln!("uttt: {}", error);
            ExitCode::FAILURE
        }
    }
}
