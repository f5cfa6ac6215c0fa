//! A book of verdicts.

use crate::{answer, ffi, Pool, Refusal, Rule, Settings, Verdict, ENTRY_BYTES};

/// Who calls a book. The library can't check it.
///
/// By calls a trainer learns of published entries only: two books that pass check 17 and have the same published
/// entries with a verdict, in the same order, answer every lookup of a trainer alike, and a trainer who adds or
/// publishes is told [`Refusal::TrainerWrites`] and nothing more. That is about calls, not about memory: whoever has a
/// [`Book`] can read all of its bytes. Nor is it about time: how long a lookup takes can tell how many entries there
/// are, and that an unpublished one has the record asked for.
#[derive(Clone, Copy, Debug, PartialEq, Eq, Hash)]
pub enum Caller {
    /// Looks up, adds and publishes; the first entry that holds a pair counts, published or not.
    Arbiter,
    /// Only looks up; the first entry that holds a pair and is published counts.
    Trainer,
}

impl Caller {
    fn is_trainer(self) -> bool {
        self == Caller::Trainer
    }
}

/// Verdicts that are kept: entries of 22 bytes, of which the first ones are used, each with a record, a rule, True or
/// False, and a mark if it is published. The bytes are laid out as include/ultimattt.h says; with the count they can be
/// stored and read back.
///
/// ```
/// use ultimattt::Caller::{Arbiter, Trainer};
/// use ultimattt::{Book, Pool, Rule, Settings, Verdict};
///
/// // X to move wins at once.
/// let mut record = [0; 21];
/// record[..11].copy_from_slice(&[0x12, 0xA0, 0x00, 0xA8, 0x00, 0x28, 0x05, 0x15, 0x00, 0x05, 0x40]);
/// let mut book = Book::new(1_000);
/// assert_eq!(book.lookup(Arbiter, &record, Rule::DrawFalse)?, None);
/// let verdict = book.add(Arbiter, &record, &mut Pool::default(), Rule::DrawFalse, &Settings::default())?;
/// assert_eq!((verdict, book.count()), (Verdict::True, 1));
/// assert_eq!(book.lookup(Arbiter, &record, Rule::DrawFalse)?, Some(true));
/// assert_eq!(book.lookup(Trainer, &record, Rule::DrawFalse)?, None);
/// assert!(book.publish(Arbiter, &record, Rule::DrawFalse)?);
/// assert_eq!(book.lookup(Trainer, &record, Rule::DrawFalse)?, Some(true));
/// # Ok::<(), ultimattt::Refusal>(())
/// ```
#[derive(Clone, Debug, Default)]
pub struct Book {
    bytes: Vec<u8>,
    count: usize,
}

impl Book {
    /// An empty book with room for so many entries.
    pub fn new(entries: usize) -> Book {
        Book { bytes: vec![0; entries * ENTRY_BYTES], count: 0 }
    }

    /// A book of these bytes, with so many entries used. If they don't go together its calls are refused with
    /// [`Refusal::BookSize`]; whether a verdict among them is true is not checked.
    pub fn from_bytes(bytes: Vec<u8>, count: usize) -> Book {
        Book { bytes, count }
    }

    pub fn into_bytes(self) -> Vec<u8> {
        self.bytes
    }

    pub fn bytes(&self) -> &[u8] {
        &self.bytes
    }

    /// How many entries are used.
    pub fn count(&self) -> usize {
        self.count
    }

    /// How many entries there is room for, the used ones too.
    pub fn entries(&self) -> usize {
        self.bytes.len() / ENTRY_BYTES
    }

    /// Makes room for so many entries more.
    pub fn grow(&mut self, entries: usize) {
        self.bytes.resize(self.bytes.len() + entries * ENTRY_BYTES, 0);
    }

    /// What the book holds for the record and the rule: True or False, for the side to move, or `None`. To a trainer,
    /// what it holds in published entries.
    pub fn lookup(&self, who: Caller, record: &[u8], rule: Rule) -> Result<Option<bool>, Refusal> {
        lookup_in(who, &self.bytes, self.count, record, rule)
    }

    /// The verdict that the book holds for the record and the rule. If it holds none, the position is searched, and a
    /// True or False is kept: it takes the next entry, unpublished. Pool and settings are checked in either case.
    ///
    /// If the book is full and doesn't hold the pair, nothing is searched: [`Refusal::BookFull`]. The record can't be a
    /// part of the book, which is written: copy an entry's record out before adding it under another rule. A trainer is
    /// refused, whatever else is wrong: [`Refusal::TrainerWrites`].
    pub fn add(
        &mut self,
        who: Caller,
        record: &[u8],
        pool: &mut Pool,
        rule: Rule,
        s: &Settings,
    ) -> Result<Verdict, Refusal> {
        add_to(who, &mut self.bytes, &mut self.count, record, pool, rule, s)
    }

    /// Marks the first entry that holds the record and the rule as published; one that is published stays so. `false`
    /// if there is none: then nothing is written. As with an add, the record can't be a part of the book, and a trainer
    /// is refused: [`Refusal::TrainerWrites`].
    pub fn publish(&mut self, who: Caller, record: &[u8], rule: Rule) -> Result<bool, Refusal> {
        publish_in(who, &mut self.bytes, self.count, record, rule)
    }
}

/// [`Book::lookup`] in lent memory.
pub fn lookup_in(who: Caller, book: &[u8], count: usize, record: &[u8], rule: Rule) -> Result<Option<bool>, Refusal> {
    // SAFETY: both slices are valid for their lengths, and nothing is written.
    let answer = unsafe {
        ffi::uttt_book_lookup(
            who.is_trainer(),
            book.as_ptr(),
            book.len(),
            count as u64,
            record.as_ptr(),
            record.len(),
            rule.number(),
        )
    };
    Refusal::check(answer.code, answer.index)?;
    match answer.verdict {
        0 => Ok(None),
        1 => Ok(Some(true)),
        2 => Ok(Some(false)),
        number => answer::unnamed("verdict", number),
    }
}

/// [`Book::add`] in lent memory. The count is one more if an entry was written; of the book, that entry alone is.
pub fn add_to(
    who: Caller,
    book: &mut [u8],
    count: &mut usize,
    record: &[u8],
    pool: &mut Pool,
    rule: Rule,
    s: &Settings,
) -> Result<Verdict, Refusal> {
    let (words, (staying, margin)) = (pool.words_mut(), s.stay.passed());
    // SAFETY: the three slices are valid for their lengths, and a &mut overlaps nothing.
    let answer = unsafe {
        ffi::uttt_book_add(
            who.is_trainer(),
            book.as_mut_ptr(),
            book.len(),
            *count as u64,
            record.as_ptr(),
            record.len(),
            words.as_mut_ptr(),
            words.len(),
            rule.number(),
            s.limit,
            s.budget,
            s.interval,
            staying,
            margin,
        )
    };
    // With a refusal it is the count that came in.
    *count = answer.count as usize;
    Refusal::check(answer.code, answer.index)?;
    Ok(Verdict::named(answer.verdict))
}

/// [`Book::publish`] in lent memory. Of the book, one bit is changed or none.
pub fn publish_in(who: Caller, book: &mut [u8], count: usize, record: &[u8], rule: Rule) -> Result<bool, Refusal> {
    // SAFETY: both slices are valid for their lengths, and a &mut overlaps nothing.
    let answer = unsafe {
        ffi::uttt_book_publish(
            who.is_trainer(),
            book.as_mut_ptr(),
            book.len(),
            count as u64,
            record.as_ptr(),
            record.len(),
            rule.number(),
        )
    };
    Refusal::check(answer.code, answer.index)?;
    match answer.published {
        0 => Ok(false),
        1 => Ok(true),
        number => answer::unnamed("published", number),
    }
}
