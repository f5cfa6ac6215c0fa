//! A book's lines, with add, lookup and publish answered by the proved library. An answer comes back only if the book
//! holds what the answer says: one entry more at the count after an add that stores, the mark of the first held entry
//! after a publish of a held pair, else every byte as it was.

use crate::lent::Lent;
use crate::ours::{same, unread, verdict};
use crate::{ffi, pool};
use calls::line::Verdict;
use calls::{Answer, Book, BookCall, Stay, Who};

/// Answers a line. The book is then as the call left it; as it was, if something is wrong.
pub fn answer(call: &BookCall, book: &mut Book, pattern: u8) -> Result<Answer, String> {
    match call {
        BookCall::Lookup { who, record, rule } => lookup(book, *who, record, *rule, pattern),
        BookCall::Publish { who, record, rule } => publish(book, *who, record, *rule, pattern),
        BookCall::Add { who, record, rule, pool, limit, budget, interval, stay } => {
            add(book, *who, record, *rule, [*pool, *limit, *budget, *interval], *stay, pattern)
        }
        BookCall::New { .. } | BookCall::Set(_) | BookCall::Dump => Ok(call.by_the_tool(book).expect("it is no call")),
    }
}

fn lookup(book: &Book, who: Who, record: &[u8], rule: u64, pattern: u8) -> Result<Answer, String> {
    let mut lent = Lent::holding(&book.bytes, pattern);
    let record_before = record.to_vec();
    let (at, length, from, size) = (lent.pointer(), book.bytes.len(), record.as_ptr(), record.len());
    // SAFETY: pointers and lengths belong together, and the buffers are apart.
    let answered = unsafe { ffi::uttt_book_lookup(who.is_trainer(), at, length, book.count, from, size, rule) };
    same("record", &record_before, record)?;
    lent.holds(&book.bytes)?;
    let found = verdict(answered.verdict)?;
    let refused = refusal(answered.code, answered.index, found != Verdict::Unknown)?;
    Ok(refused.unwrap_or(Answer::Found(Some(found).filter(|verdict| *verdict != Verdict::Unknown))))
}

fn publish(book: &mut Book, who: Who, record: &[u8], rule: u64, pattern: u8) -> Result<Answer, String> {
    let mut lent = Lent::holding(&book.bytes, pattern);
    let record_before = record.to_vec();
    let (at, length, from, size) = (lent.pointer(), book.bytes.len(), record.as_ptr(), record.len());
    // SAFETY: pointers and lengths belong together, and the buffers are apart.
    let answered = unsafe { ffi::uttt_book_publish(who.is_trainer(), at, length, book.count, from, size, rule) };
    same("record", &record_before, record)?;
    let published = match answered.published {
        0 => false,
        1 => true,
        other => return Err(format!("answered with published {}", other)),
    };
    let refused = refusal(answered.code, answered.index, published)?;
    let mut after = book.clone();
    if published {
        after.publish(record, rule);
    }
    lent.holds(&after.bytes)?;
    *book = after;
    Ok(refused.unwrap_or(Answer::Published(published)))
}

/// `settings` are pool, limit, budget and interval. The pool's words are open to an add that searches: one that
/// stores or says Unknown.
fn add(
    book: &mut Book,
    who: Who,
    record: &[u8],
    rule: u64,
    settings: [u64; 4],
    stay: Stay,
    pattern: u8,
) -> Result<Answer, String> {
    let mut lent = Lent::holding(&book.bytes, pattern);
    let record_before = record.to_vec();
    let ([nodes, limit, budget, interval], (staying, margin)) = (settings, stay.passed(unread(pattern)));
    let (trainer, at, length, count) = (who.is_trainer(), lent.pointer(), book.bytes.len(), book.count);
    let (from, size) = (record.as_ptr(), record.len());
    // SAFETY: pointers and lengths belong together, and the buffers are apart.
    let call = |words, k| unsafe {
        ffi::uttt_book_add(
            trainer, at, length, count, from, size, words, k, rule, limit, budget, interval, staying, margin,
        )
    };
    let searched = |a: &ffi::AddAnswer| a.code == 0 && (a.verdict == 0 || a.count != count);
    let answered = pool::lend(nodes, pattern, call, |a| if searched(a) { nodes } else { 0 })?;
    same("record", &record_before, record)?;
    let found = verdict(answered.verdict)?;
    let refused = refusal(answered.code, answered.index, found != Verdict::Unknown)?;
    let mut after = book.clone();
    if refused.is_none() && answered.count != count {
        after.store(record, rule, found);
    }
    if answered.count != after.count {
        return Err(format!("count {} with code {}, where it was {}", answered.count, answered.code, count));
    }
    lent.holds(&after.bytes)?;
    *book = after;
    Ok(refused.unwrap_or(Answer::Added { verdict: found, count: answered.count }))
}

/// The refusal, if the code is one: it has no result. An index is not there in any case.
fn refusal(code: u32, index: u64, result: bool) -> Result<Option<Answer>, String> {
    match code {
        _ if index != 0 => Err(format!("code {} with index {}", code, index)),
        0 => Ok(None),
        number if result => Err(format!("refused {} with a result", number)),
        number => Ok(Some(Answer::refused(number))),
    }
}
