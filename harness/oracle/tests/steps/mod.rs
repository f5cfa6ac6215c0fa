//! Generated lists of a book's lines, and each line with the book before and after it.

use calls::{Answer, Book, BookCall, Call, Kind};
use oracle::generate::{list, Random};

pub struct Step {
    pub line: BookCall,
    pub before: Book,
    pub answer: Answer,
    pub after: Book,
}

/// So many lists.
pub fn lists(count: usize) -> impl Iterator<Item = Vec<BookCall>> {
    let mut random = Random::new(1);
    (0..count).map(move |_| list(&mut random, Kind::Book).into_iter().map(line).collect())
}

/// The lines of so many lists.
pub fn steps(count: usize) -> impl Iterator<Item = Step> {
    let mut book = Book::default();
    lists(count).flatten().map(move |line| {
        let before = book.clone();
        let answer = oracle::answer(&Call::Book(line.clone()), &mut book);
        Step { line, before, answer, after: book.clone() }
    })
}

/// The book's line that the call is.
pub fn line(call: Call) -> BookCall {
    match call {
        Call::Book(line) => line,
        call => panic!("{} is no book's line", call),
    }
}
