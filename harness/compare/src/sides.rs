//! The library and the oracle on the lines of a list, each with a book that it keeps between them.

use calls::{Answer, Book, Call};
use uttt::ours;

#[derive(Default)]
pub struct Sides {
    library: Book,
    oracle: Book,
}

impl Sides {
    /// The library's answer, or what it did that it may not.
    pub fn library(&mut self, call: &Call) -> Result<Answer, String> {
        ours::answer(call, &mut self.library)
    }

    pub fn oracle(&mut self, call: &Call) -> Answer {
        oracle::answer(call, &mut self.oracle)
    }

    /// How many entries of the oracle's book are used.
    pub fn count(&self) -> u64 {
        self.oracle.count
    }
}
