//! The calls of a book between guard pages, and what any answer of theirs must meet. That a verdict which was searched
//! for is the right one is the comparison's to see.

use crate::checks::must;
use crate::filling::Filling;
use crate::guarded::Edge;
use crate::inputs::any_margin;
use crate::run::{Answered, Lender, NODE_BYTES, WORD_BYTES};
use crate::watch;
use calls::line::Verdict;
use calls::{hex, table, Book, BookCall, Call, Who};
use oracle::generate::Random;
use uttt::ffi;

/// The call as lines that `uttt` reads: before a book's stands the one that sets the book.
pub fn lines(call: &Call, book: &Book) -> String {
    match call {
        Call::Book(_) => format!("book set {} {}\n  call: {}", hex::show(&book.bytes), book.count, call),
        _ => call.to_string(),
    }
}

/// The record of a call.
pub fn record(call: &BookCall) -> &[u8] {
    call.asked().map_or(&[], |(_, record, _)| record)
}

/// The refusal that is due, if one is.
pub fn due(call: &BookCall, book: &Book) -> Option<u32> {
    match call {
        BookCall::Lookup { record, rule, .. } => table::lookup_refusal(book, record, *rule),
        BookCall::Publish { who, record, rule } => table::publish_refusal(book, *who, record, *rule),
        BookCall::Add { who, record, rule, pool, budget, interval, stay, .. } => {
            table::add_refusal(book, *who, record, *rule, [*pool, *budget, *interval], *stay)
        }
        BookCall::New { .. } | BookCall::Set(_) | BookCall::Dump => None,
    }
}

/// The verdict that the caller finds for the pair.
fn held(call: &BookCall, book: &Book) -> Option<Verdict> {
    call.asked().and_then(|(who, record, rule)| book.held(who, record, rule))
}

/// Whether the call is an add that has to search.
fn searches(call: &BookCall, book: &Book) -> bool {
    matches!(call, BookCall::Add { .. }) && due(call, book).is_none() && held(call, book).is_none()
}

/// Whether the call is a publish of a pair that is held.
fn marks(call: &BookCall, book: &Book) -> bool {
    matches!(call, BookCall::Publish { .. }) && due(call, book).is_none() && held(call, book).is_some()
}

impl Lender {
    /// A call of a book, which can be written by an add that searches and by a publish of a held pair alone.
    pub fn book(
        &mut self,
        call: &BookCall,
        book: &Book,
        line: &str,
        edge: Edge,
        random: &mut Random,
    ) -> Result<Answered, String> {
        let filling = Filling::any(random);
        if searches(call, book) || marks(call, book) {
            self.output.lend_holding(&book.bytes, edge, filling);
        } else {
            self.output.lend_to_read(&book.bytes, edge, filling);
        }
        let answered = match call {
            BookCall::Lookup { who, rule, .. } => self.lookup(*who, *rule, book, line),
            BookCall::Publish { who, rule, .. } => self.publish(*who, *rule, book, line),
            BookCall::Add { .. } => self.add(call, book, line, edge, random)?,
            BookCall::New { .. } | BookCall::Set(_) | BookCall::Dump => unreachable!("a tool does it itself"),
        };
        self.output.unchanged(book.bytes.len())?;
        Ok(answered)
    }

    fn lookup(&mut self, who: Who, rule: u64, book: &Book, line: &str) -> Answered {
        let (trainer, export) = (who.is_trainer(), self.exports.lookup);
        let (at, length) = (self.output.pointer(), self.output.bytes().len());
        let (from, size) = (self.first.pointer(), self.first.bytes().len());
        // SAFETY: pointers and lengths belong together, and what is lent is only read.
        let a =
            watch::during(line, self.seconds, || unsafe { export(trainer, at, length, book.count, from, size, rule) });
        let (numbers, output) = (vec![a.verdict.into()], self.output.bytes().to_vec());
        Answered { code: a.code, index: a.index, numbers, output }
    }

    fn publish(&mut self, who: Who, rule: u64, book: &Book, line: &str) -> Answered {
        let (trainer, export) = (who.is_trainer(), self.exports.publish);
        let (at, length) = (self.output.pointer(), self.output.bytes().len());
        let (from, size) = (self.first.pointer(), self.first.bytes().len());
        // SAFETY: pointers and lengths belong together, and the buffers are apart.
        let a =
            watch::during(line, self.seconds, || unsafe { export(trainer, at, length, book.count, from, size, rule) });
        let (numbers, output) = (vec![a.published.into()], self.output.bytes().to_vec());
        Answered { code: a.code, index: a.index, numbers, output }
    }

    /// The pool's words are open to an add that searches.
    fn add(
        &mut self,
        call: &BookCall,
        book: &Book,
        line: &str,
        edge: Edge,
        random: &mut Random,
    ) -> Result<Answered, String> {
        let BookCall::Add { who, rule, pool, limit, budget, interval, stay, .. } = *call else {
            unreachable!("no other adds")
        };
        let capacity = NODE_BYTES * pool as usize;
        self.pool.lend(capacity + WORD_BYTES * random.index(5), edge, Filling::any(random));
        let (trainer, export) = (who.is_trainer(), self.exports.add);
        let (on, margin) = stay.passed(any_margin(random));
        let (at, length) = (self.output.pointer(), self.output.bytes().len());
        let (from, size) = (self.first.pointer(), self.first.bytes().len());
        let (words, k) = (self.pool.pointer() as *mut u32, self.pool.bytes().len() / WORD_BYTES);
        // SAFETY: pointers and lengths belong together, and the buffers are apart.
        let a = watch::during(line, self.seconds, || unsafe {
            export(trainer, at, length, book.count, from, size, words, k, rule, limit, budget, interval, on, margin)
        });
        self.pool.unchanged(if searches(call, book) { capacity } else { 0 })?;
        Ok(added(a, book.count, self.output.bytes()))
    }
}

/// The numbers are the verdict and by how much the count has grown: both are 0 with a refusal.
pub fn added(a: ffi::AddAnswer, count: u64, book: &[u8]) -> Answered {
    let numbers = vec![a.verdict.into(), a.count.wrapping_sub(count)];
    Answered { code: a.code, index: a.index, numbers, output: book.to_vec() }
}

/// By how much the count has grown.
fn grown(a: &Answered) -> u64 {
    a.numbers.get(1).copied().unwrap_or(0)
}

/// A held pair's verdict is found, by an add too, and such a pair is published. An add of another stores True and
/// False. No other byte changes.
pub fn result(call: &BookCall, book: &Book, a: &Answered) -> Result<(), String> {
    let number = a.numbers[0];
    let mut after = book.clone();
    match (call, held(call, book)) {
        (BookCall::Publish { record, rule, .. }, held) => {
            after.publish(record, *rule);
            must(number == u64::from(held.is_some()), "a pair is published if it is held")?
        }
        (_, Some(held)) => {
            must(number == held as u64 && grown(a) == 0, "the first verdict that the caller may read is found")?
        }
        (BookCall::Add { record, rule, .. }, None) => {
            match number {
                0 => (),
                1 => after.store(record, *rule, Verdict::True),
                2 => after.store(record, *rule, Verdict::False),
                other => return Err(format!("verdict {}", other)),
            }
            must(grown(a) == after.count - book.count, "True and False are counted, Unknown is not")?;
        }
        (_, None) => must(number == 0, "what the caller may not read is not found")?,
    }
    must(a.output == after.bytes, "of the book only an entry at the count or a mark is written, as the answer says")
}

/// What an answered call found or did.
pub fn outcome(call: &BookCall, a: &Answered) -> String {
    let what = match (call, &a.numbers[..]) {
        (BookCall::Publish { .. }, [1]) => return "published".to_string(),
        (BookCall::Publish { .. }, _) => return "not held".to_string(),
        (_, [0]) => "not held",
        (_, [0, _]) => "not stored",
        (_, [_, 1]) => "stored",
        _ => "held",
    };
    format!("verdict {}, {}", a.numbers[0], what)
}

/// The book as the call left it.
pub fn take_over(book: &mut Book, a: Answered) {
    *book = Book { count: book.count.wrapping_add(grown(&a)), bytes: a.output };
}
