//! Games judged together by the proved library. An answer comes back only if what was lent is as it was but for the
//! words of the parts, and if there are zeros where no result is due.

use crate::ours::{fields, same, settings_refusal, unread};
use crate::{ffi, pool};
use calls::games::MOST_GAMES;
use calls::{Answer, Fields, Games};

pub fn answer(call: &Games, pattern: u8) -> Result<Answer, String> {
    let Games { records, rule, pool, limit, allowance, interval, stay, .. } = call;
    let records_before = records.clone();
    let shares_before = shares_between_margins(call, pattern);
    let mut shares = shares_before;
    let at = shares.as_mut_ptr().wrapping_add(1) as *const [u64; MOST_GAMES];
    let (from, size, (staying, margin)) = (records.as_ptr(), records.len(), stay.passed(unread(pattern)));
    // SAFETY: pointers and lengths belong together, and the buffers are apart.
    let export = |words, length| unsafe {
        ffi::uttt_judge_games(from, size, words, length, at, *rule, *limit, *allowance, *interval, staying, margin)
    };
    let in_parts = call.part() * call.count() as u64;
    let answered = pool::lend(*pool, pattern, export, |answered| if answered.code == 0 { in_parts } else { 0 })?;
    same("records", &records_before, records)?;
    if shares != shares_before {
        return Err("the lent shares were written, or a word next to them".to_string());
    }
    read(&answered)
}

/// The shares between two words that hold the pattern. Those past the games are not read: under the second pattern other
/// numbers stand there.
fn shares_between_margins(call: &Games, pattern: u8) -> [u64; MOST_GAMES + 2] {
    let mut lent = [u64::from_ne_bytes([pattern; 8]); MOST_GAMES + 2];
    let turned = |game: usize| pattern >> 7 == 1 && game >= call.count();
    for (game, share) in call.shares.into_iter().enumerate() {
        lent[game + 1] = if turned(game) { !share } else { share };
    }
    lent
}

fn read(answered: &ffi::GamesAnswer) -> Result<Answer, String> {
    let ffi::GamesAnswer { code, index, count, results } = answered;
    let (given, past) = results.split_at_checked(*count as usize).ok_or(format!("answered with count {}", count))?;
    if past.iter().any(|result| *result != ffi::ResultFields::default()) {
        return Err(format!("a result past the count {}", count));
    }
    match (*code, *index) {
        (0, 0) => {
            given.iter().map(|result| fields(*result)).collect::<Result<Vec<Fields>, String>>().map(Answer::Games)
        }
        (0, index) => Err(format!("answered with index {}", index)),
        (number, index) => settings_refusal(number, index, given.is_empty()),
    }
}
