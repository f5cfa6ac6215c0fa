//! What the calls of a book are lent, so that a wrong library can do them otherwise (`wrong_books`, `wrong_marks`,
//! `wrong_stay`, `wrong_budgets`, `wrong_choices`).

use calls::book::ENTRY;
use calls::record::LENGTH;
use std::slice::from_raw_parts;
use uttt::ffi;

/// What each of the calls is lent. A lookup only reads the book.
#[derive(Clone, Copy)]
pub struct Asked {
    pub trainer: bool,
    pub book: *mut u8,
    pub length: usize,
    pub count: u64,
    pub record: *const u8,
    pub n: usize,
    pub rule: u64,
}

impl Asked {
    pub unsafe fn lookup(self) -> ffi::LookupAnswer {
        let Asked { trainer, book, length, count, record, n, rule } = self;
        ffi::uttt_book_lookup(trainer, book, length, count, record, n, rule)
    }

    pub unsafe fn publish(self) -> ffi::PublishAnswer {
        let Asked { trainer, book, length, count, record, n, rule } = self;
        ffi::uttt_book_publish(trainer, book, length, count, record, n, rule)
    }

    pub unsafe fn bytes(&self) -> Vec<u8> {
        copy(self.book, self.length)
    }

    pub unsafe fn record(&self) -> Vec<u8> {
        copy(self.record, self.n)
    }

    /// The same of a book of other bytes, as many.
    pub fn over(self, bytes: &mut [u8]) -> Asked {
        Asked { book: bytes.as_mut_ptr(), ..self }
    }

    /// The same with every entry counted.
    pub fn counting_all(self) -> Asked {
        Asked { count: self.count.max(self.entries()), ..self }
    }

    /// The same with the book's length cut to 32 bits.
    pub fn cut(self) -> Asked {
        Asked { length: self.length as u32 as usize, ..self }
    }

    /// The same with the count cut to 32 bits.
    pub fn cut_count(self) -> Asked {
        Asked { count: u64::from(self.count as u32), ..self }
    }

    /// Reads a byte past the book.
    pub unsafe fn read_past(&self) {
        self.book.wrapping_add(self.length).read_volatile();
    }

    /// Writes the first byte of the book, if there is one, as it is.
    pub unsafe fn write(&self) {
        if self.length > 0 {
            self.book.write_volatile(self.book.read_volatile());
        }
    }

    /// The lookup in a book with something done to the last byte of each entry.
    pub unsafe fn lookup_over(self, change: impl Fn(&mut u8)) -> ffi::LookupAnswer {
        let mut bytes = self.bytes();
        bytes.chunks_exact_mut(ENTRY).for_each(|e| change(&mut e[LENGTH]));
        self.over(&mut bytes).lookup()
    }

    /// The lookup from the last used entry on.
    pub unsafe fn lookup_backwards(self) -> ffi::LookupAnswer {
        let mut bytes = self.bytes();
        let used = &mut bytes[..if self.is_broken() { 0 } else { ENTRY * self.count as usize }];
        let turned: Vec<u8> = used.chunks_exact(ENTRY).rev().flatten().copied().collect();
        used.copy_from_slice(&turned);
        self.over(&mut bytes).lookup()
    }

    /// The places of the used entries that have the record and whose last byte passes.
    pub unsafe fn of_record(&self, passes: impl Fn(u8) -> bool) -> Vec<usize> {
        let (bytes, record) = (self.bytes(), self.record());
        let used = bytes.chunks_exact(ENTRY).take(self.count as usize).enumerate();
        used.filter(|(_, e)| e[..LENGTH] == *record && passes(e[LENGTH])).map(|(at, _)| at).collect()
    }

    /// The places of the used entries of the pair that have a verdict.
    pub unsafe fn places_held(&self) -> Vec<usize> {
        self.of_record(|byte| self.is_of_rule(byte) && matches!(byte / 16 % 4, 1 | 2))
    }

    /// Whether an entry with this last byte has the rule.
    pub fn is_of_rule(&self, byte: u8) -> bool {
        u64::from(byte / 64) == self.rule
    }

    /// The last byte of an entry.
    pub unsafe fn last_byte(&self, at: usize) -> *mut u8 {
        self.book.add(ENTRY * at + LENGTH)
    }

    pub fn entries(&self) -> u64 {
        (self.length / ENTRY) as u64
    }

    /// Check 17 fails.
    pub fn is_broken(&self) -> bool {
        !self.length.is_multiple_of(ENTRY) || self.count > self.entries()
    }

    /// Every entry is used, and none holds the pair.
    pub unsafe fn is_full(&self) -> bool {
        !self.is_broken() && self.count == self.entries() && self.places_held().is_empty()
    }
}

/// What an add is lent.
#[derive(Clone, Copy)]
pub struct Add {
    pub asked: Asked,
    pub words: *mut u32,
    pub k: usize,
    pub limits: [u64; 3],
    pub staying: bool,
    pub margin: f64,
}

impl Add {
    pub unsafe fn add(self) -> ffi::AddAnswer {
        let Asked { trainer, book, length, count, record, n, rule } = self.asked;
        let Add { words, k, limits: [limit, budget, interval], staying, margin, .. } = self;
        ffi::uttt_book_add(
            trainer, book, length, count, record, n, words, k, rule, limit, budget, interval, staying, margin,
        )
    }

    pub unsafe fn search(self) -> ffi::SearchAnswer {
        let (Asked { record, n, rule, .. }, [limit, budget, interval]) = (self.asked, self.limits);
        ffi::uttt_search(record, n, self.words, self.k, rule, limit, budget, interval, self.staying, self.margin)
    }

    /// Writes an entry at the count.
    pub unsafe fn store(self, entry: &[u8]) {
        let at = self.asked.book.add(ENTRY * self.asked.count as usize);
        at.copy_from_nonoverlapping(entry.as_ptr(), ENTRY);
    }

    pub fn refused(self, code: u32) -> ffi::AddAnswer {
        ffi::AddAnswer { code, index: 0, verdict: 0, count: self.asked.count }
    }
}

/// Makes False of verdict bits 3 in the last byte of an entry.
pub fn false_for_three(byte: &mut u8) {
    if *byte / 16 % 4 == 3 {
        *byte -= 16;
    }
}

unsafe fn copy(at: *const u8, length: usize) -> Vec<u8> {
    if length == 0 {
        return Vec::new();
    }
    from_raw_parts(at, length).to_vec()
}

/// A lookup that is done otherwise.
macro_rules! lookup {
    ($name:ident, |$lent:ident| $done:expr) => {
        unsafe extern "C" fn $name(
            trainer: bool,
            book: *const u8,
            length: usize,
            count: u64,
            record: *const u8,
            n: usize,
            rule: u64,
        ) -> ffi::LookupAnswer {
            let book = book.cast_mut();
            let $lent = $crate::book_calls::Asked { trainer, book, length, count, record, n, rule };
            $done
        }
    };
}

/// A publish that is done otherwise.
macro_rules! publish {
    ($name:ident, |$lent:ident| $done:expr) => {
        unsafe extern "C" fn $name(
            trainer: bool,
            book: *mut u8,
            length: usize,
            count: u64,
            record: *const u8,
            n: usize,
            rule: u64,
        ) -> ffi::PublishAnswer {
            let $lent = $crate::book_calls::Asked { trainer, book, length, count, record, n, rule };
            $done
        }
    };
}

/// An add that is done otherwise.
macro_rules! add {
    ($name:ident, |$lent:ident| $done:expr) => {
        #[allow(clippy::too_many_arguments)]
        unsafe extern "C" fn $name(
            trainer: bool,
            book: *mut u8,
            length: usize,
            count: u64,
            record: *const u8,
            n: usize,
            words: *mut u32,
            k: usize,
            rule: u64,
            limit: u64,
            budget: u64,
            interval: u64,
            staying: bool,
            margin: f64,
        ) -> ffi::AddAnswer {
            let asked = $crate::book_calls::Asked { trainer, book, length, count, record, n, rule };
            let limits = [limit, budget, interval];
            let $lent = $crate::book_calls::Add { asked, words, k, limits, staying, margin };
            $done
        }
    };
}

/// An add that gives this code, where there is one, in the place of another.
macro_rules! add_code {
    ($name:ident, |$lent:ident, $code:ident| $other:expr) => {
        add!($name, |$lent| {
            let a = $lent.add();
            let $code = a.code;
            $other.map_or(a, |code| $lent.refused(code))
        });
    };
}

pub(crate) use {add, add_code, lookup, publish};
