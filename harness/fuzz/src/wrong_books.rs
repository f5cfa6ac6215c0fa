//! Libraries with one thing wrong in lookup or add, as `wrong` has them: the proved exports over another book or
//! another count, or with something done before or after them.

use crate::book_calls::{add, false_for_three, lookup, Asked};
use crate::exports::{Exports, LIBRARY};
use calls::book::{entry, ENTRY};
use calls::record::LENGTH;
use calls::table::{record_refusal, LARGEST_RULE};
use uttt::ffi;

pub const ALL: [(&str, Exports); 24] = [
    ("lookup reads entries past the count", Exports { lookup: lookup_all, ..LIBRARY }),
    ("lookup goes by the last entry of a pair", Exports { lookup: lookup_last, ..LIBRARY }),
    ("lookup compares the last four bits", Exports { lookup: lookup_low_bits, ..LIBRARY }),
    ("lookup takes verdict bits 3 for False", Exports { lookup: lookup_three, ..LIBRARY }),
    ("lookup stops at verdict bits 0 of the pair", Exports { lookup: lookup_zero, ..LIBRARY }),
    ("lookup does not compare the rule", Exports { lookup: lookup_any_rule, ..LIBRARY }),
    ("lookup does not compare the record's last byte", Exports { lookup: lookup_20_bytes, ..LIBRARY }),
    ("lookup checks the book before the record", Exports { lookup: lookup_17_first, ..LIBRARY }),
    ("lookup checks the book before the rule", Exports { lookup: lookup_17_before_10, ..LIBRARY }),
    ("lookup takes a count above the entries by one", Exports { lookup: lookup_one_more, ..LIBRARY }),
    ("lookup reads a byte past the book", Exports { lookup: lookup_past, ..LIBRARY }),
    ("lookup cuts the book's length to 32 bits", Exports { lookup: lookup_cut, ..LIBRARY }),
    ("lookup cuts the count to 32 bits", Exports { lookup: lookup_cut_count, ..LIBRARY }),
    ("lookup gives a verdict with a refusal", Exports { lookup: lookup_refused, ..LIBRARY }),
    ("add refuses a full book before it looks for the pair", Exports { add: add_18_first, ..LIBRARY }),
    ("add searches before it refuses a full book", Exports { add: add_18_last, ..LIBRARY }),
    ("add stores Unknown", Exports { add: add_unknown, ..LIBRARY }),
    ("add searches for a held pair", Exports { add: add_searches, ..LIBRARY }),
    ("add finds a held pair before it checks the settings", Exports { add: add_held_first, ..LIBRARY }),
    ("add checks the book before the record", Exports { add: add_17_first, ..LIBRARY }),
    ("add gives count 0 with a refusal", Exports { add: add_no_count, ..LIBRARY }),
    ("add writes to a book that it refuses", Exports { add: add_refused, ..LIBRARY }),
    ("add sets the last four bits", Exports { add: add_low_bits, ..LIBRARY }),
    ("add writes past its entry", Exports { add: add_beyond, ..LIBRARY }),
];

lookup!(lookup_all, |lent| lent.counting_all().lookup());
lookup!(lookup_last, |lent| lent.lookup_backwards());
lookup!(lookup_low_bits, |lent| lent.lookup_over(|byte| *byte = if *byte % 16 == 0 { *byte } else { 0 }));
lookup!(lookup_three, |lent| lent.lookup_over(false_for_three));
lookup!(lookup_zero, |lent| {
    let empty = lent.of_record(|byte| lent.is_of_rule(byte) && byte / 16 % 4 == 0);
    match empty.first() {
        Some(at) if !lent.is_broken() => Asked { count: *at as u64, ..lent }.lookup(),
        _ => lent.lookup(),
    }
});
lookup!(lookup_any_rule, |lent| {
    let rule = lent.rule.min(LARGEST_RULE) as u8;
    lent.lookup_over(|byte| *byte = 64 * rule + *byte % 64)
});
lookup!(lookup_20_bytes, |lent| {
    let mut bytes = lent.bytes();
    let last = if lent.n == LENGTH { *lent.record.add(LENGTH - 1) } else { 0 };
    bytes.chunks_exact_mut(ENTRY).for_each(|e| e[LENGTH - 1] = last);
    lent.over(&mut bytes).lookup()
});
lookup!(lookup_17_first, |lent| {
    if lent.is_broken() {
        return ffi::LookupAnswer { code: 17, index: 0, verdict: 0 };
    }
    lent.lookup()
});
lookup!(lookup_17_before_10, |lent| {
    let a = lent.lookup();
    ffi::LookupAnswer { code: if a.code == 10 && lent.is_broken() { 17 } else { a.code }, ..a }
});
lookup!(lookup_one_more, |lent| {
    let more = u64::from(lent.count == lent.entries() + 1);
    Asked { count: lent.count - more, ..lent }.lookup()
});
lookup!(lookup_past, |lent| {
    lent.read_past();
    lent.lookup()
});
lookup!(lookup_cut, |lent| lent.cut().lookup());
lookup!(lookup_cut_count, |lent| lent.cut_count().lookup());
lookup!(lookup_refused, |lent| {
    let a = lent.lookup();
    ffi::LookupAnswer { verdict: if a.code == 17 { 2 } else { a.verdict }, ..a }
});

add!(add_18_first, |lent| {
    let a = lent.add();
    if a.code == 0 && a.count == lent.asked.entries() && a.count == lent.asked.count {
        return lent.refused(18);
    }
    a
});
add!(add_18_last, |lent| {
    let a = lent.add();
    if a.code == 18 && lent.search().result.verdict == 0 {
        return lent.refused(0);
    }
    a
});
add!(add_unknown, |lent| {
    let a = lent.add();
    if a.code == 0 && a.verdict == 0 {
        lent.store(&entry(&lent.asked.record(), lent.asked.rule, 0, 0));
        return ffi::AddAnswer { count: a.count + 1, ..a };
    }
    a
});
add!(add_searches, |lent| {
    let a = lent.add();
    if a.code == 0 && a.verdict != 0 && a.count == lent.asked.count {
        lent.search();
    }
    a
});
add!(add_held_first, |lent| {
    let found = lent.asked.lookup();
    if found.verdict != 0 && !lent.asked.trainer {
        return ffi::AddAnswer { verdict: found.verdict, ..lent.refused(0) };
    }
    lent.add()
});
add!(add_17_first, |lent| {
    if !lent.asked.trainer && lent.asked.is_broken() && record_refusal(&lent.asked.record()).is_some() {
        return lent.refused(17);
    }
    lent.add()
});
add!(add_no_count, |lent| {
    let a = lent.add();
    ffi::AddAnswer { count: if a.code == 0 { a.count } else { 0 }, ..a }
});
add!(add_refused, |lent| {
    let a = lent.add();
    if a.code > 10 {
        lent.asked.write();
    }
    a
});
add!(add_low_bits, |lent| {
    let a = lent.add();
    if a.count != lent.asked.count {
        *lent.asked.last_byte(lent.asked.count as usize) += 15;
    }
    a
});
add!(add_beyond, |lent| {
    let a = lent.add();
    if a.count != lent.asked.count && a.count < lent.asked.entries() {
        *lent.asked.book.add(ENTRY * a.count as usize) ^= 1;
    }
    a
});
