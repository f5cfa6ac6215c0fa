//! Calls answered by the proved library. An answer comes back only if every byte and word that the
//! library had no business with stayed as it was; of a very long pool, those that are looked at.

use crate::lent::Lent;
use crate::{book, ffi, games, players, pool};
use calls::line::Verdict;
use calls::record::LENGTH;
use calls::{Answer, Book, Call, Fields, FullVerdict, Stay};

/// Answers a call under two opposite patterns, or says what is wrong. Both times a book's line begins with `book`,
/// which is then as the line left it.
pub fn answer(call: &Call, book: &mut Book) -> Result<Answer, String> {
    let (mut after, mut other) = (book.clone(), book.clone());
    let first = answer_under(call, &mut after, 0x5A)?;
    let second = answer_under(call, &mut other, 0xA5)?;
    if first != second {
        return Err(format!("the answer depends on what the buffer held: {} and {}", first, second));
    }
    *book = after;
    Ok(first)
}

fn answer_under(call: &Call, book: &mut Book, pattern: u8) -> Result<Answer, String> {
    match call {
        Call::Moves { record, output } => moves(record, *output, pattern),
        Call::Replay { record, moves, output } => replay(record, moves, *output, pattern),
        Call::Search { record, rule, pool, limit, budget, interval, stay } => {
            search(record, *rule, *pool, [*limit, *budget, *interval], *stay, pattern)
        }
        Call::Full { record, pool, limit, budget, interval, stay } => {
            full(record, *pool, [*limit, *budget, *interval], *stay, pattern)
        }
        Call::Referee { record, rule } => referee(record, *rule),
        Call::Sheets { first, second, output } => sheets(first, second, *output, pattern),
        Call::Book(call) => book::answer(call, book, pattern),
        Call::Games(call) => games::answer(call, pattern),
        Call::Simulate(call) => players::answer(call, pattern),
    }
}

fn moves(record: &[u8], output: usize, pattern: u8) -> Result<Answer, String> {
    let mut lent = Lent::new(output, pattern);
    let record_before = record.to_vec();
    // SAFETY: pointers and lengths belong together, and the buffers are apart.
    let answered = unsafe { ffi::uttt_legal_moves(record.as_ptr(), record.len(), lent.pointer(), output) };
    same("record", &record_before, record)?;
    if answered.code != 0 {
        return refusal(&lent, answered.code, answered.index, answered.count);
    }
    if answered.index != 0 {
        return Err(format!("answered with index {}", answered.index));
    }
    Ok(Answer::Moves(lent.written(answered.count as usize)?.to_vec()))
}

fn replay(record: &[u8], moves: &[u8], output: usize, pattern: u8) -> Result<Answer, String> {
    let mut lent = Lent::new(output, pattern);
    let (record_before, moves_before) = (record.to_vec(), moves.to_vec());
    // SAFETY: pointers and lengths belong together, and the buffers are apart.
    let answered =
        unsafe { ffi::uttt_replay(record.as_ptr(), record.len(), moves.as_ptr(), moves.len(), lent.pointer(), output) };
    same("record", &record_before, record)?;
    same("moves", &moves_before, moves)?;
    if answered.code != 0 {
        return refusal(&lent, answered.code, answered.index, 0);
    }
    if answered.index != 0 {
        return Err(format!("answered with index {}", answered.index));
    }
    Ok(Answer::Record(lent.written(LENGTH)?.to_vec()))
}

fn referee(record: &[u8], rule: u64) -> Result<Answer, String> {
    let record_before = record.to_vec();
    // SAFETY: pointer and length belong together.
    let answered = unsafe { ffi::uttt_referee(record.as_ptr(), record.len(), rule) };
    same("record", &record_before, record)?;
    if answered.index != 0 {
        return Err(format!("answered with index {}", answered.index));
    }
    match (answered.code, answered.value) {
        (0, 1) => Ok(Answer::Value(true)),
        (0, 2) => Ok(Answer::Value(false)),
        (0, other) => Err(format!("answered with value {}", other)),
        (number, 0) => Ok(Answer::refused(number)),
        (number, other) => Err(format!("refused {} with a value, {}", number, other)),
    }
}

/// The number holds the pattern before the call, which is neither 0 nor 7, and so do the words next to it.
fn sheets(first: &[u8], second: &[u8], output: usize, pattern: u8) -> Result<Answer, String> {
    let mut lent = Lent::new(output, pattern);
    let held = u32::from_ne_bytes([pattern; 4]);
    let mut words = [held; 3];
    let (one, other) = if pattern >> 7 == 1 { in_one_memory(first, second) } else { (first, second) };
    let (first_before, second_before) = (first.to_vec(), second.to_vec());
    let (from, to, number) = (one.as_ptr(), lent.pointer(), words.as_mut_ptr().wrapping_add(1));
    // SAFETY: pointers and lengths belong together; what is written is apart from all else.
    let count = unsafe { ffi::uttt_agreed_opening(from, one.len(), other.as_ptr(), other.len(), to, output, number) };
    same("first sheet", &first_before, first)?;
    same("second sheet", &second_before, second)?;
    if words[0] != held || words[2] != held {
        return Err("a word next to the number was written".to_string());
    }
    match words[1] {
        0 => Ok(Answer::Opening { count, record: lent.written(LENGTH)?.to_vec() }),
        7 => refusal(&lent, 7, 0, count),
        other => Err(format!("answered with number {}", other)),
    }
}

/// Two lists; where one is the beginning of the other, it is lent as that part of it.
fn in_one_memory<'a>(first: &'a [u8], second: &'a [u8]) -> (&'a [u8], &'a [u8]) {
    if first.starts_with(second) {
        (first, &first[..second.len()])
    } else if second.starts_with(first) {
        (&second[..first.len()], second)
    } else {
        (first, second)
    }
}

/// `limits` are limit, budget and interval.
fn search(record: &[u8], rule: u64, nodes: u64, limits: [u64; 3], stay: Stay, pattern: u8) -> Result<Answer, String> {
    let record_before = record.to_vec();
    let (at, size, [limit, budget, interval]) = (record.as_ptr(), record.len(), limits);
    let (staying, margin) = stay.passed(unread(pattern));
    // SAFETY: pointers and lengths belong together, and the buffers are apart.
    let call = |words, length| unsafe {
        ffi::uttt_search(at, size, words, length, rule, limit, budget, interval, staying, margin)
    };
    let answered = pool::lend(nodes, pattern, call, |answered| if answered.code == 0 { nodes } else { 0 })?;
    same("record", &record_before, record)?;
    if answered.code != 0 {
        return settings_refusal(answered.code, answered.index, answered.result == ffi::ResultFields::default());
    }
    if answered.index != 0 {
        return Err(format!("answered with index {}", answered.index));
    }
    Ok(Answer::Search(fields(answered.result)?))
}

/// `limits` are limit, budget and interval.
fn full(record: &[u8], nodes: u64, limits: [u64; 3], stay: Stay, pattern: u8) -> Result<Answer, String> {
    let record_before = record.to_vec();
    let (at, size, [limit, budget, interval]) = (record.as_ptr(), record.len(), limits);
    let (staying, margin) = stay.passed(unread(pattern));
    // SAFETY: pointers and lengths belong together, and the buffers are apart.
    let call = |words, length| unsafe {
        ffi::uttt_full_verdict(at, size, words, length, limit, budget, interval, staying, margin)
    };
    let answered = pool::lend(nodes, pattern, call, |answered| if answered.code == 0 { nodes } else { 0 })?;
    same("record", &record_before, record)?;
    if answered.code != 0 {
        let zeros = answered.verdict == 0 && [answered.first, answered.second] == [ffi::ResultFields::default(); 2];
        return settings_refusal(answered.code, answered.index, zeros);
    }
    if answered.index != 0 {
        return Err(format!("answered with index {}", answered.index));
    }
    let verdict = match answered.verdict {
        0 => FullVerdict::Unknown,
        1 => FullVerdict::Win,
        2 => FullVerdict::Loss,
        3 => FullVerdict::Draw,
        4 => FullVerdict::AtLeastDraw,
        5 => FullVerdict::AtMostDraw,
        other => return Err(format!("answered with full verdict {}", other)),
    };
    Ok(Answer::Full(verdict, fields(answered.first)?, fields(answered.second)?))
}

/// The margin that is passed where staying is off: if it were read, it would be refused under one pattern, and would
/// change many results under the other.
pub fn unread(pattern: u8) -> f64 {
    if pattern >> 7 == 1 {
        1.0
    } else {
        f64::NAN
    }
}

/// The nine fields, or the number that is no verdict's.
pub fn fields(result: ffi::ResultFields) -> Result<Fields, String> {
    Ok(Fields {
        verdict: verdict(result.verdict)?,
        proof: result.proof.into(),
        disproof: result.disproof.into(),
        allocated: result.allocated,
        freed: result.freed,
        proved: result.proved,
        disproved: result.disproved,
        expanded: result.expanded,
        cause: result.cause.into(),
    })
}

/// The verdict of a number.
pub fn verdict(number: u32) -> Result<Verdict, String> {
    match number {
        0 => Ok(Verdict::Unknown),
        1 => Ok(Verdict::True),
        2 => Ok(Verdict::False),
        other => Err(format!("answered with verdict {}", other)),
    }
}

/// A refusal of a call that searches: all of its results are zeros.
pub fn settings_refusal(number: u32, index: u64, zeros: bool) -> Result<Answer, String> {
    if !zeros {
        return Err(format!("refused {} with a result", number));
    }
    Ok(Answer::Refused { number, index })
}

/// A refusal writes nothing and gives no result.
fn refusal(lent: &Lent, number: u32, index: u64, result: u64) -> Result<Answer, String> {
    lent.written(0)?;
    if result != 0 {
        return Err(format!("refused {} with a result, {}", number, result));
    }
    Ok(Answer::Refused { number, index })
}

pub fn same(what: &str, before: &[u8], after: &[u8]) -> Result<(), String> {
    if before == after {
        Ok(())
    } else {
        Err(format!("the lent {} was written", what))
    }
}
