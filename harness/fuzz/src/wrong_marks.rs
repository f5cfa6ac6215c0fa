//! Libraries with one thing wrong in who may do what or in the published mark, as `wrong` has them: the proved exports
//! with another caller or another book, or with something done before or after them.

use crate::book_calls::{add, false_for_three, lookup, publish, Add, Asked};
use crate::exports::{Exports, LIBRARY};
use crate::record_calls::nodes;
use crate::search_calls::given;
use calls::book::{ENTRY, MARK};
use calls::record::LENGTH;
use calls::table::{lookup_refusal, record_refusal, search_refusal};
use uttt::ffi;

pub const ALL: [(&str, Exports); 40] = [
    ("a trainer's lookup reads unpublished entries", Exports { lookup: trainer_all, ..LIBRARY }),
    ("a trainer's lookup stops at an unpublished entry of the pair", Exports { lookup: trainer_stops, ..LIBRARY }),
    ("a trainer's lookup gives the first entry's verdict", Exports { lookup: trainer_first, ..LIBRARY }),
    ("a trainer's lookup goes by the last published entry", Exports { lookup: trainer_last, ..LIBRARY }),
    ("a trainer's lookup takes verdict bits 3 for False", Exports { lookup: trainer_three, ..LIBRARY }),
    ("a trainer's lookup goes by the bit beside the mark", Exports { lookup: trainer_other_bit, ..LIBRARY }),
    ("a trainer's lookup goes by all of the four bits", Exports { lookup: trainer_four_bits, ..LIBRARY }),
    ("a trainer's lookup reads entries past the count", Exports { lookup: trainer_past_count, ..LIBRARY }),
    ("a trainer's lookup is refused with 19", Exports { lookup: trainer_refused, ..LIBRARY }),
    ("an arbiter's lookup reads published entries alone", Exports { lookup: arbiter_published, ..LIBRARY }),
    ("publish marks the last held entry of the pair", Exports { publish: publish_last, ..LIBRARY }),
    ("publish marks the second held entry of the pair", Exports { publish: publish_second, ..LIBRARY }),
    ("publish marks every held entry of the pair", Exports { publish: publish_every, ..LIBRARY }),
    ("publish marks the first entry of the pair, held or not", Exports { publish: publish_unheld, ..LIBRARY }),
    ("publish marks the first entry of the record", Exports { publish: publish_any_rule, ..LIBRARY }),
    ("publish marks nothing where a later entry is published", Exports { publish: publish_shown, ..LIBRARY }),
    ("publish sets the bit beside the mark", Exports { publish: publish_other_bit, ..LIBRARY }),
    ("publish clears the other low bits", Exports { publish: publish_clears, ..LIBRARY }),
    ("publish takes a set mark away", Exports { publish: publish_toggles, ..LIBRARY }),
    (
        "publish marks an entry of the record where the pair is not held",
        Exports { publish: publish_not_held, ..LIBRARY },
    ),
    ("publish reads entries past the count", Exports { publish: publish_past_count, ..LIBRARY }),
    ("publish says not held where the mark is set", Exports { publish: publish_again, ..LIBRARY }),
    ("publish counts the entries that are published", Exports { publish: publish_counts, ..LIBRARY }),
    ("publish gives 1 with a refusal", Exports { publish: publish_refused, ..LIBRARY }),
    ("publish writes to a book that does not hold the pair", Exports { publish: publish_writes, ..LIBRARY }),
    ("publish reads a byte past the book", Exports { publish: publish_past, ..LIBRARY }),
    ("publish cuts the book's length to 32 bits", Exports { publish: publish_cut, ..LIBRARY }),
    ("publish cuts the count to 32 bits", Exports { publish: publish_cut_count, ..LIBRARY }),
    ("publish checks the book before the record", Exports { publish: publish_17_first, ..LIBRARY }),
    ("publish checks the caller after the record", Exports { publish: publish_19_after_6, ..LIBRARY }),
    ("publish checks the caller after all else", Exports { publish: publish_19_last, ..LIBRARY }),
    ("publish does not check the caller", Exports { publish: publish_by_anyone, ..LIBRARY }),
    ("add checks the caller after the record", Exports { add: add_19_after_6, ..LIBRARY }),
    ("add checks the caller after the settings", Exports { add: add_19_after_10, ..LIBRARY }),
    ("add checks the caller after the book", Exports { add: add_19_after_17, ..LIBRARY }),
    ("add does not check the caller", Exports { add: add_by_anyone, ..LIBRARY }),
    ("add searches before it refuses a trainer", Exports { add: add_searches_19, ..LIBRARY }),
    ("add stores published entries", Exports { add: add_published, ..LIBRARY }),
    ("add takes unpublished entries for not held", Exports { add: add_unpublished, ..LIBRARY }),
    ("add gives the verdict that a trainer finds", Exports { add: add_as_trainer, ..LIBRARY }),
];

impl Asked {
    fn by_an_arbiter(self) -> Asked {
        Asked { trainer: false, ..self }
    }

    fn by_a_trainer(self) -> Asked {
        Asked { trainer: true, ..self }
    }

    /// The answer of a publish, which marks a copy of the book.
    unsafe fn publish_a_copy(self) -> ffi::PublishAnswer {
        self.over(&mut self.bytes()).publish()
    }

    /// A publish that does something else to a held pair: to the last bytes of these entries.
    unsafe fn publish_otherwise<'a>(
        self,
        places: impl IntoIterator<Item = &'a usize>,
        change: impl Fn(&mut u8),
    ) -> ffi::PublishAnswer {
        let a = self.publish_a_copy();
        if a.published == 1 {
            places.into_iter().for_each(|at| change(&mut *self.last_byte(*at)));
        }
        a
    }

    unsafe fn is_published(&self, at: usize) -> bool {
        *self.last_byte(at) & MARK != 0
    }

    /// The refusal of a lookup of these.
    unsafe fn refusal(&self) -> Option<u32> {
        lookup_refusal(&self.whole(), &self.record(), self.rule)
    }
}

impl Add {
    unsafe fn refusal_of_settings(&self) -> Option<u32> {
        let (nodes, [_, budget, interval]) = (nodes(self.k), self.limits);
        let stay = given(self.staying, self.margin);
        search_refusal(&self.asked.record(), self.asked.rule, nodes, budget, interval, stay)
    }
}

fn mark(byte: &mut u8) {
    *byte |= MARK;
}

/// A lookup that is done otherwise for a trainer alone.
macro_rules! trainer {
    ($name:ident, |$lent:ident| $done:expr) => {
        lookup!($name, |$lent| if $lent.trainer { $done } else { $lent.lookup() });
    };
}

/// A publish by a trainer that is refused with this code, where there is one, before check 19.
macro_rules! publish_19 {
    ($name:ident, |$lent:ident| $code:expr) => {
        publish!($name, |$lent| match $code {
            Some(code) if $lent.trainer => ffi::PublishAnswer { code, index: 0, published: 0 },
            _ => $lent.publish(),
        });
    };
}

/// The same of an add.
macro_rules! add_19 {
    ($name:ident, |$lent:ident| $code:expr) => {
        add!($name, |$lent| match $code {
            Some(code) if $lent.asked.trainer => $lent.refused(code),
            _ => $lent.add(),
        });
    };
}

trainer!(trainer_all, |lent| lent.by_an_arbiter().lookup());
trainer!(trainer_stops, |lent| match lent.places_held().first() {
    Some(at) if !lent.is_broken() && !lent.is_published(*at) => ffi::LookupAnswer { verdict: 0, ..lent.lookup() },
    _ => lent.lookup(),
});
trainer!(trainer_first, |lent| match lent.lookup() {
    a if a.verdict != 0 => lent.by_an_arbiter().lookup(),
    a => a,
});
trainer!(trainer_last, |lent| lent.lookup_backwards());
trainer!(trainer_three, |lent| lent.lookup_over(false_for_three));
trainer!(trainer_other_bit, |lent| lent.lookup_over(|byte| *byte = *byte / 2 * 2 + *byte / 2 % 2));
trainer!(trainer_four_bits, |lent| lent.lookup_over(|byte| *byte -= if *byte % 16 == MARK { 0 } else { *byte % 2 }));
trainer!(trainer_past_count, |lent| lent.counting_all().lookup());
trainer!(trainer_refused, |_lent| ffi::LookupAnswer { code: 19, index: 0, verdict: 0 });
lookup!(arbiter_published, |lent| lent.by_a_trainer().lookup());

publish!(publish_last, |lent| lent.publish_otherwise(lent.places_held().last(), mark));
publish!(publish_second, |lent| lent.publish_otherwise(lent.places_held().get(1), mark));
publish!(publish_every, |lent| lent.publish_otherwise(&lent.places_held(), mark));
publish!(publish_unheld, |lent| {
    let of_pair = lent.of_record(|byte| lent.is_of_rule(byte));
    lent.publish_otherwise(of_pair.first(), mark)
});
publish!(publish_any_rule, |lent| lent.publish_otherwise(lent.of_record(|_| true).first(), mark));
publish!(publish_shown, |lent| {
    let shown = lent.places_held().iter().any(|at| lent.is_published(*at));
    if shown {
        lent.publish_a_copy()
    } else {
        lent.publish()
    }
});
publish!(publish_other_bit, |lent| lent.publish_otherwise(lent.places_held().first(), |byte| *byte |= 2 * MARK));
publish!(publish_clears, |lent| lent
    .publish_otherwise(lent.places_held().first(), |byte| *byte = *byte / 16 * 16 + MARK));
publish!(publish_toggles, |lent| lent.publish_otherwise(lent.places_held().first(), |byte| *byte ^= MARK));
publish!(publish_not_held, |lent| {
    let a = lent.publish();
    if let (0, 0, Some(at)) = (a.code, a.published, lent.of_record(|_| true).first()) {
        mark(&mut *lent.last_byte(*at));
    }
    a
});
publish!(publish_past_count, |lent| lent.counting_all().publish());
publish!(publish_again, |lent| {
    let set = lent.places_held().first().is_some_and(|at| lent.is_published(*at));
    let a = lent.publish();
    ffi::PublishAnswer { published: if set { 0 } else { a.published }, ..a }
});
publish!(publish_counts, |lent| {
    let a = lent.publish();
    let shown = lent.places_held().iter().filter(|at| lent.is_published(**at)).count();
    ffi::PublishAnswer { published: a.published * shown as u32, ..a }
});
publish!(publish_refused, |lent| {
    let a = lent.publish();
    ffi::PublishAnswer { published: if a.code == 17 { 1 } else { a.published }, ..a }
});
publish!(publish_writes, |lent| {
    let a = lent.publish();
    if a.code == 0 && a.published == 0 {
        lent.write();
    }
    a
});
publish!(publish_past, |lent| {
    lent.read_past();
    lent.publish()
});
publish!(publish_cut, |lent| lent.cut().publish());
publish!(publish_cut_count, |lent| lent.cut_count().publish());
publish!(publish_17_first, |lent| {
    let a = lent.publish();
    ffi::PublishAnswer { code: if a.code != 19 && lent.is_broken() { 17 } else { a.code }, ..a }
});
publish_19!(publish_19_after_6, |lent| record_refusal(&lent.record()));
publish_19!(publish_19_last, |lent| lent.refusal());
publish!(publish_by_anyone, |lent| lent.by_an_arbiter().publish());

add_19!(add_19_after_6, |lent| record_refusal(&lent.asked.record()));
add_19!(add_19_after_10, |lent| lent.refusal_of_settings().filter(|code| matches!(code, 8..=10 | 21)));
add_19!(add_19_after_17, |lent| lent.asked.refusal().filter(|code| *code == 17));
add!(add_by_anyone, |lent| Add { asked: lent.asked.by_an_arbiter(), ..lent }.add());
add!(add_searches_19, |lent| {
    if lent.asked.trainer {
        lent.search();
    }
    lent.add()
});
add!(add_published, |lent| {
    let a = lent.add();
    if a.count != lent.asked.count {
        mark(&mut *lent.asked.last_byte(lent.asked.count as usize));
    }
    a
});
add!(add_unpublished, |lent| {
    let mut bytes = lent.asked.bytes();
    let unpublished = bytes.chunks_exact_mut(ENTRY).filter(|e| e[LENGTH] & MARK == 0);
    unpublished.for_each(|e| e[LENGTH] = e[LENGTH] / 64 * 64);
    let a = Add { asked: lent.asked.over(&mut bytes), ..lent }.add();
    if a.count != lent.asked.count {
        lent.store(&bytes[ENTRY * lent.asked.count as usize..]);
    }
    a
});
add!(add_as_trainer, |lent| {
    let shown = lent.asked.by_a_trainer().lookup().verdict;
    let a = lent.add();
    ffi::AddAnswer { verdict: if a.verdict != 0 && shown != 0 { shown } else { a.verdict }, ..a }
});
