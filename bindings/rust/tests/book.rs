//! The book of verdicts (MANUAL, Book of verdicts): which entry is found, what an add writes, and the order of the
//! checks.

mod common;

use common::book::{add, entry, found, publish, published, seen, used, with_low, ENOUGH, FALSE, FILL, MARK, TRUE};
use common::{budget, d, pool, refused_records, w, E, FREE_CHOICE, RULES};
use ultimattt::Caller::{Arbiter, Trainer};
use ultimattt::{add_to, lookup_in, search, Book, Pool, Refusal, Rule, Settings, Verdict, ENTRY_BYTES};

/// D is drawn: False under rules 0 and 1, True under rule 2. Each pair has its own entry.
#[test]
fn one_record_under_three_rules() {
    let drawn = d(FREE_CHOICE);
    let values = [Verdict::False, Verdict::False, Verdict::True];
    let mut book = Book::new(3);
    for (i, (rule, value)) in RULES.into_iter().zip(values).enumerate() {
        assert_eq!(found(&book, &drawn, rule), None);
        assert_eq!(add(&mut book, &drawn, rule), Ok(value));
        assert_eq!((book.count(), found(&book, &drawn, rule)), (i + 1, Some(value == Verdict::True)));
    }
    let stored = [(RULES[0], FALSE), (RULES[1], FALSE), (RULES[2], TRUE)].map(|(r, v)| entry(&drawn, r, v)).concat();
    assert_eq!(book.bytes(), stored);
    assert_eq!(found(&book, &w(), Rule::DrawFalse), None);
}

/// The second add is not a search: it has no budget for one, and the pool's words stay as they are.
#[test]
fn added_twice() {
    let mut book = Book::new(2);
    assert_eq!(add(&mut book, &w(), Rule::DrawFalse), Ok(Verdict::True));
    let before = book.bytes().to_vec();
    let mut pool = Pool::from_words(vec![0xA5A5_A5A5; 34]);
    assert_eq!(search(&w(), &mut pool.clone(), Rule::DrawFalse, &budget(0)).unwrap().verdict, Verdict::Unknown);
    assert_eq!(book.add(Arbiter, &w(), &mut pool, Rule::DrawFalse, &budget(0)), Ok(Verdict::True));
    assert_eq!(pool.words(), [0xA5A5_A5A5; 34]);
    assert_eq!((book.count(), book.bytes()), (1, &before[..]));
}

#[test]
fn unknown_is_not_kept() {
    let mut book = Book::from_bytes(vec![FILL; 2 * ENTRY_BYTES], 0);
    assert_eq!(book.add(Arbiter, &w(), &mut pool(50), Rule::DrawFalse, &budget(0)), Ok(Verdict::Unknown));
    assert_eq!((book.count(), book.bytes()), (0, &[FILL; 44][..]));
    assert_eq!(found(&book, &w(), Rule::DrawFalse), None);
    assert_eq!(add(&mut book, &w(), Rule::DrawFalse), Ok(Verdict::True));
}

/// Of the book an add writes the entry at the count, of the pool no word past the last whole node.
#[test]
fn what_an_add_writes() {
    for count in 0..3 {
        let mut memory = [FILL; 4 * ENTRY_BYTES];
        let (mut after, mut pool) = (count, Pool::from_words(vec![7; 34]));
        let answer = add_to(Arbiter, &mut memory[..66], &mut after, &w(), &mut pool, Rule::DrawTrue, &budget(ENOUGH));
        assert_eq!((answer, after), (Ok(Verdict::True), count + 1));
        let mut due = [FILL; 4 * ENTRY_BYTES];
        due[count * ENTRY_BYTES..][..ENTRY_BYTES].copy_from_slice(&entry(&w(), Rule::DrawTrue, TRUE));
        assert_eq!(memory, due);
        assert_eq!(pool.words()[30..], [7; 4]);
    }
}

#[test]
fn entries_past_the_count() {
    let past = entry(&w(), Rule::DrawFalse, FALSE);
    let mut book = Book::from_bytes([entry(&E, Rule::DrawFalse, TRUE), past].concat(), 1);
    assert_eq!(found(&book, &w(), Rule::DrawFalse), None);
    assert_eq!(add(&mut book, &w(), Rule::DrawFalse), Ok(Verdict::True));
    assert_eq!(book.bytes()[ENTRY_BYTES..], entry(&w(), Rule::DrawFalse, TRUE));
    assert_eq!((book.count(), found(&book, &w(), Rule::DrawFalse)), (2, Some(true)));
}

/// The first entry of a pair counts, and an add of the pair says what it says.
#[test]
fn entries_that_contradict_each_other() {
    for (first, second, value) in [(TRUE, FALSE, true), (FALSE, TRUE, false)] {
        let others = [entry(&w(), Rule::DrawTrue, second), entry(&E, Rule::DrawFalse, second)];
        let pair = [entry(&w(), Rule::DrawFalse, first), entry(&w(), Rule::DrawFalse, second)];
        let mut book = used(&[&others[..], &pair[..]].concat());
        assert_eq!(found(&book, &w(), Rule::DrawFalse), Some(value));
        let said = if value { Verdict::True } else { Verdict::False };
        assert_eq!(add(&mut book, &w(), Rule::DrawFalse), Ok(said));
        assert_eq!(book.count(), 4);
    }
}

/// Verdict bits 0 and 3 hold nothing, and don't hide what comes after them.
#[test]
fn verdict_bits_of_no_verdict() {
    for bits in [0, 3] {
        let mut book = used(&[entry(&w(), Rule::DrawFalse, bits)]);
        assert_eq!(found(&book, &w(), Rule::DrawFalse), None);
        assert_eq!(add(&mut book, &w(), Rule::DrawFalse), Err(Refusal::BookFull));
        book.grow(1);
        assert_eq!(add(&mut book, &w(), Rule::DrawFalse), Ok(Verdict::True));
        assert_eq!((book.count(), found(&book, &w(), Rule::DrawFalse)), (2, Some(true)));
    }
}

/// To arbiters the four low bits of an entry's last byte make no difference, to trainers the mark alone does.
#[test]
fn low_bits() {
    for low in 0..16 {
        let book = used(&[with_low(entry(&w(), Rule::DrawFalse, FALSE), low)]);
        assert_eq!(found(&book, &w(), Rule::DrawFalse), Some(false));
        assert_eq!(seen(&book, &w(), Rule::DrawFalse), (low & MARK == MARK).then_some(false));
    }
}

/// Every bit of the record and of the rule is compared, whoever calls and whatever the call.
#[test]
fn one_bit_apart() {
    let alike = published(&w(), Rule::DrawFalse, TRUE);
    for bit in 0..170 {
        let mut bytes = alike.clone();
        bytes[bit / 8] ^= 0x80 >> (bit % 8);
        let mut book = Book::from_bytes(bytes, 1);
        assert_eq!(found(&book, &w(), Rule::DrawFalse), None, "bit {bit}");
        assert_eq!(seen(&book, &w(), Rule::DrawFalse), None, "bit {bit}");
        assert!(!publish(&mut book, &w(), Rule::DrawFalse), "bit {bit}");
    }
    let book = used(&[alike]);
    assert_eq!((found(&book, &w(), Rule::DrawFalse), seen(&book, &w(), Rule::DrawFalse)), (Some(true), Some(true)));
}

/// Books of zeros, which hold nothing, of every small length and with counts in and out of their range.
#[test]
fn sizes_of_a_book() {
    let counts = [0, 1, 2, 3, usize::MAX / 22, usize::MAX / 22 + 1, usize::MAX];
    let sizes = [(0, Some(0)), (21, None), (22, Some(1)), (23, None), (43, None), (44, Some(2))];
    for (count, (length, entries)) in counts.into_iter().flat_map(|count| sizes.map(|size| (count, size))) {
        let mut book = Book::from_bytes(vec![0; length], count);
        let (looked_up, added) = match entries {
            Some(most) if count < most => (Ok(None), Ok(Verdict::True)),
            Some(most) if count == most => (Ok(None), Err(Refusal::BookFull)),
            _ => (Err(Refusal::BookSize), Err(Refusal::BookSize)),
        };
        for who in [Arbiter, Trainer] {
            assert_eq!(book.lookup(who, &w(), Rule::DrawFalse), looked_up, "{length} bytes, count {count}");
        }
        let marked = looked_up.map(|_| false);
        assert_eq!(book.publish(Arbiter, &w(), Rule::DrawFalse), marked, "{length} bytes, count {count}");
        assert_eq!(add(&mut book, &w(), Rule::DrawFalse), added, "{length} bytes, count {count}");
        assert_eq!(book.count(), if added.is_ok() { count + 1 } else { count });
    }
}

/// In a full book a held pair is answered; any other is refused without a search, be it Unknown or not.
#[test]
fn a_full_book() {
    let mut book = used(&[entry(&w(), Rule::DrawFalse, TRUE)]);
    let before = book.bytes().to_vec();
    assert_eq!(add(&mut book, &w(), Rule::DrawFalse), Ok(Verdict::True));
    let mut pool = Pool::from_words(vec![0xA5A5_A5A5; 34]);
    for (record, rule, expansions) in [(w(), Rule::DrawTrue, ENOUGH), (w(), Rule::DrawTrue, 0), (E, Rule::DrawFalse, 0)]
    {
        assert_eq!(book.add(Arbiter, &record, &mut pool, rule, &budget(expansions)), Err(Refusal::BookFull));
    }
    assert_eq!(pool.words(), [0xA5A5_A5A5; 34]);
    assert_eq!((book.count(), book.bytes()), (1, &before[..]));
    assert_eq!((book.entries(), Book::new(0).entries()), (1, 0));
}

/// A refused record comes ahead of all else that is wrong, but for a trainer who writes.
#[test]
fn refused_records_in_a_broken_book() {
    let mut book = Book::from_bytes(vec![FILL; 23], 7);
    let (mut none, late) = (Pool::from_words(vec![]), Settings { interval: 0, ..budget(1) });
    for (record, number) in &refused_records() {
        for who in [Arbiter, Trainer] {
            assert_eq!(book.lookup(who, record, Rule::DrawFalse).unwrap_err().number(), *number);
        }
        assert_eq!(book.add(Arbiter, record, &mut none, Rule::DrawFalse, &late).unwrap_err().number(), *number);
        assert_eq!(book.publish(Arbiter, record, Rule::DrawFalse).unwrap_err().number(), *number);
    }
    assert_eq!((book.count(), book.bytes()), (7, &[FILL; 23][..]));
}

/// Pool and settings come ahead of the book; a refused add gives its count back and writes nothing.
#[test]
fn order_of_the_checks() {
    let late = Settings { interval: 0, ..budget(1) };
    let (mut none, mut small) = (Pool::from_words(vec![]), pool(2));
    for length in [21, 22, 23] {
        let mut book = Book::from_bytes(vec![FILL; length], 7);
        assert_eq!(book.add(Arbiter, &w(), &mut none, Rule::DrawFalse, &late), Err(Refusal::PoolEmpty));
        assert_eq!(book.add(Arbiter, &w(), &mut small, Rule::DrawFalse, &late), Err(Refusal::SettingRange));
        assert_eq!(book.add(Arbiter, &w(), &mut small, Rule::DrawFalse, &budget(1)), Err(Refusal::BookSize));
        assert_eq!((book.count(), book.into_bytes()), (7, vec![FILL; length]));
    }
}

/// A held pair is refused too if the pool or a setting is.
#[test]
fn checks_of_a_held_pair() {
    let mut book = used(&[entry(&w(), Rule::DrawFalse, TRUE)]);
    let (mut short, late) = (Pool::from_words(vec![0; 4]), Settings { interval: 0, ..budget(1) });
    assert_eq!(book.add(Arbiter, &w(), &mut short, Rule::DrawFalse, &late), Err(Refusal::PoolEmpty));
    assert_eq!(book.add(Arbiter, &w(), &mut pool(1), Rule::DrawFalse, &late), Err(Refusal::SettingRange));
    assert_eq!(book.add(Arbiter, &w(), &mut pool(1), Rule::DrawFalse, &budget(0)), Ok(Verdict::True));
}

/// A lookup writes nothing, so its record may be an entry's, where it stands.
#[test]
fn looked_up_with_the_record_of_an_entry() {
    let book = used(&[entry(&w(), Rule::DrawFalse, TRUE), published(&d(FREE_CHOICE), Rule::DrawTrue, FALSE)]);
    let bytes = book.bytes();
    for who in [Arbiter, Trainer] {
        assert_eq!(lookup_in(who, bytes, 2, &bytes[22..43], Rule::DrawTrue), Ok(Some(false)));
        assert_eq!(lookup_in(who, bytes, 2, &bytes[22..44], Rule::DrawTrue), Err(Refusal::RecordLength));
    }
}

/// What was stored and published is found again in a copy that was read back.
#[test]
fn stored_and_read_back() {
    let mut book = Book::new(4);
    let records = [w(), d(FREE_CHOICE)];
    let pairs = || records.iter().flat_map(|record| RULES[1..].iter().map(move |rule| (record, *rule)));
    let verdicts: Vec<Verdict> = pairs().map(|(record, rule)| add(&mut book, record, rule).unwrap()).collect();
    assert_eq!(verdicts, [Verdict::True, Verdict::True, Verdict::False, Verdict::True]);
    assert!(publish(&mut book, &d(FREE_CHOICE), Rule::DrawFalse));
    let copy = Book::from_bytes(book.bytes().to_vec(), book.count());
    let found: Vec<Option<bool>> = pairs().map(|(record, rule)| found(&copy, record, rule)).collect();
    assert_eq!(found, [Some(true), Some(true), Some(false), Some(true)]);
    let seen: Vec<Option<bool>> = pairs().map(|(record, rule)| seen(&copy, record, rule)).collect();
    assert_eq!(seen, [None, None, Some(false), None]);
}
