//! The loop of a tool that answers calls: a line in, a line out.

use crate::line;
use crate::{Answer, Book, Call};
use std::io::{self, BufRead, Write};

/// Reads calls from standard input, one a line, and prints `answer`'s answers; the book is kept between them. A
/// line that can't be read or answered gets a message in its place, and the next one is read. Gives how many did.
pub fn answer_lines(answer: impl Fn(&Call, &mut Book) -> Result<Answer, String>) -> io::Result<u64> {
    let mut input = io::stdin().lock();
    let mut output = io::stdout().lock();
    let (mut number, mut failed) = (0, 0);
    let mut book = Book::default();
    loop {
        let mut bytes = Vec::new();
        if input.read_until(b'\n', &mut bytes)? == 0 {
            return Ok(failed);
        }
        number += 1;
        let read =
            line::parse(&String::from_utf8_lossy(&bytes)).map_err(|m| format!("can't read line {}: {}", number, m));
        match read.and_then(|call| answer(&call, &mut book).map_err(|m| format!("can't answer line {}: {}", number, m)))
        {
            Ok(answer) => writeln!(output, "{}", answer)?,
            Err(message) => {
                failed += 1;
                writeln!(output, "{}", message)?
            }
        }
    }
}
