//! What a call leaves alone in the memory that is lent to it.

mod common;

use common::book::{entry, published, FILL, TRUE};
use common::{budget, w, E};
use ultimattt::Caller::{Arbiter, Trainer};
use ultimattt::{add_to, agreed_opening_into, full_verdict, legal_moves_into, publish_in, replay, replay_into, search};
use ultimattt::{Pool, Refusal, Rule, ENTRY_BYTES, NODE_WORDS};

#[test]
fn output_past_the_record() {
    let mut output = [FILL; 40];
    assert_eq!(replay_into(&E, &[], &mut output), Ok(()));
    assert_eq!(output[..21], E);
    assert_eq!(output[21..], [FILL; 19]);
}

#[test]
fn output_past_an_opening() {
    let mut output = [FILL; 22];
    assert_eq!(agreed_opening_into(&[0x44], &[], &mut output[..21]), Ok(&[][..]));
    assert_eq!((&output[..21], output[21]), (&E[..], FILL));
    assert_eq!(agreed_opening_into(&[0x44], &[0x44], &mut output), Ok(&[0x44][..]));
    assert_eq!(replay(&E, &[0x44]).unwrap(), output[..21]);
    assert_eq!(output[21], FILL);
}

#[test]
fn output_past_the_moves() {
    let mut output = [FILL; 100];
    assert_eq!(legal_moves_into(&w(), &mut output), Ok(5));
    assert_eq!(output[..5], [0x22, 0x23, 0x24, 0x25, 0x28]);
    assert_eq!(output[5..], [FILL; 95]);
}

#[test]
fn output_of_a_refused_call() {
    let mut output = [FILL; 100];
    assert_eq!(replay_into(&E, &[0x44, 0x44], &mut output), Err(Refusal::NotEmpty(1)));
    assert_eq!(legal_moves_into(&E, &mut output[..80]), Err(Refusal::OutputShort));
    assert_eq!(agreed_opening_into(&[0x44], &[0x44], &mut output[..20]), Err(Refusal::OutputShort));
    assert_eq!(output, [FILL; 100]);
}

/// Six nodes and four words more, all of them junk.
fn junk() -> Vec<u32> {
    (0..34).map(|i: u32| i.wrapping_mul(0x9E37_79B9) ^ 0x5555_5555).collect()
}

#[test]
fn words_past_the_capacity() {
    let mut pool = Pool::from_words(junk());
    assert_eq!(pool.nodes(), 6);
    let result = search(&w(), &mut pool, Rule::DrawFalse, &budget(1)).unwrap();
    assert_eq!(result.to_string(), "True 0 2147483648 2 1 1 0 1 0");
    assert_eq!(pool.words()[6 * NODE_WORDS..], junk()[6 * NODE_WORDS..]);
    full_verdict(&w(), &mut pool, &budget(1)).unwrap();
    assert_eq!(pool.into_words()[6 * NODE_WORDS..], junk()[6 * NODE_WORDS..]);
}

#[test]
fn pool_of_a_refused_call() {
    let mut pool = Pool::from_words(junk());
    let late = budget(ultimattt::BUDGET_MOST + 1);
    assert_eq!(search(&w(), &mut pool, Rule::DrawFalse, &late), Err(Refusal::SettingRange));
    assert!(full_verdict(&w()[1..], &mut pool, &budget(1)).is_err());
    assert_eq!(pool.words(), junk());
}

/// Memory for five entries, the third of which is given; the others are junk.
fn lent(pair: Vec<u8>) -> Vec<u8> {
    [vec![FILL; 2 * ENTRY_BYTES], pair, vec![FILL; 2 * ENTRY_BYTES]].concat()
}

#[test]
fn bytes_around_a_published_entry() {
    let mut memory = lent(entry(&w(), Rule::DrawFalse, TRUE));
    for _ in 0..2 {
        let book = &mut memory[ENTRY_BYTES..4 * ENTRY_BYTES];
        assert_eq!(publish_in(Arbiter, book, 2, &w(), Rule::DrawFalse), Ok(true));
        assert_eq!(memory, lent(published(&w(), Rule::DrawFalse, TRUE)));
    }
}

#[test]
fn book_without_the_pair() {
    let mut memory = lent(entry(&w(), Rule::DrawFalse, TRUE));
    assert_eq!(publish_in(Arbiter, &mut memory, 5, &w(), Rule::DrawTrue), Ok(false));
    assert_eq!(publish_in(Arbiter, &mut memory, 2, &w(), Rule::DrawFalse), Ok(false));
    assert_eq!(memory, lent(entry(&w(), Rule::DrawFalse, TRUE)));
}

#[test]
fn book_of_a_refused_publish() {
    let mut memory = lent(entry(&w(), Rule::DrawFalse, TRUE));
    assert_eq!(publish_in(Arbiter, &mut memory, 5, &w()[1..], Rule::DrawFalse), Err(Refusal::RecordLength));
    assert_eq!(publish_in(Arbiter, &mut memory[1..], 3, &w(), Rule::DrawFalse), Err(Refusal::BookSize));
    assert_eq!(publish_in(Arbiter, &mut memory, 6, &w(), Rule::DrawFalse), Err(Refusal::BookSize));
    assert_eq!(publish_in(Trainer, &mut memory, 5, &w(), Rule::DrawFalse), Err(Refusal::TrainerWrites));
    assert_eq!(memory, lent(entry(&w(), Rule::DrawFalse, TRUE)));
}

#[test]
fn book_count_and_pool_of_a_trainers_add() {
    for (length, count, record) in [(110, 2, &w()[..]), (110, 5, &w()), (110, 0, &E), (109, 2, &w()), (66, 9, &[])] {
        let mut memory = lent(entry(&w(), Rule::DrawFalse, TRUE));
        let (book, mut after, mut pool) = (&mut memory[..length], count, Pool::from_words(junk()));
        let answer = add_to(Trainer, book, &mut after, record, &mut pool, Rule::DrawFalse, &budget(1));
        assert_eq!((answer, after), (Err(Refusal::TrainerWrites), count));
        assert_eq!((memory, pool.into_words()), (lent(entry(&w(), Rule::DrawFalse, TRUE)), junk()));
    }
}

/// A used pool gives the same answers as a new one.
#[test]
fn words_decide_nothing() {
    let mut used = Pool::from_words((0..20_000).map(|i: u32| !i).collect());
    let mut new = Pool::new(4_000).unwrap();
    for record in [E, w(), E] {
        let first = full_verdict(&record, &mut used, &budget(2_000)).unwrap();
        assert_eq!(first, full_verdict(&record, &mut new, &budget(2_000)).unwrap());
    }
}
