//! Libraries with one thing wrong in games judged together, as `wrong` has them: the proved exports with something done
//! before or after them, or the passes by lone searches with one thing done otherwise.

use crate::exports::{Exports, LIBRARY};
use crate::game_calls::{games, games_then, refused, Asked, NODE_WORDS};
use crate::passes::{Passes, AS_DUE};
use calls::games::MOST_GAMES;
use calls::record::LENGTH;
use calls::table::{games_refusal, record_refusal, LARGEST_BUDGET, LARGEST_INTERVAL, LARGEST_POOL, LARGEST_RULE};
use uttt::ffi;

pub const ALL: [(&str, Exports); 44] = [
    ("games checks their number before the length", Exports { games: number_first, ..LIBRARY }),
    ("games checks the records before their number", Exports { games: records_first, ..LIBRARY }),
    ("games does not check for over eight", Exports { games: nine, ..LIBRARY }),
    ("games names the lowest refused game, not the earliest check", Exports { games: lowest_game, ..LIBRARY }),
    ("games names the last game that the check refuses", Exports { games: last_game, ..LIBRARY }),
    ("games gives index 0 with a refused record", Exports { games: no_index, ..LIBRARY }),
    ("games counts the index from 1", Exports { games: index_from_one, ..LIBRARY }),
    ("games checks the pool before the records", Exports { games: pool_first, ..LIBRARY }),
    ("games reads the whole pool for check 8", Exports { games: whole_by_8, ..LIBRARY }),
    ("games reads a part for check 9", Exports { games: part_by_9, ..LIBRARY }),
    ("games checks the settings before the pool", Exports { games: settings_first, ..LIBRARY }),
    ("games checks shares past the games for their range", Exports { games: range_of_all, ..LIBRARY }),
    ("games does not check the last share for its range", Exports { games: range_but_last, ..LIBRARY }),
    ("games does not check the allowance for its range", Exports { games: any_allowance, ..LIBRARY }),
    ("games sums shares past the games", Exports { games: sum_of_all, ..LIBRARY }),
    ("games refuses shares that sum to the allowance", Exports { games: sum_below, ..LIBRARY }),
    ("games takes shares that sum to one above the allowance", Exports { games: sum_above, ..LIBRARY }),
    ("games checks the sum before the settings", Exports { games: sum_first, ..LIBRARY }),
    ("games makes no second pass", Exports { games: one_pass, ..LIBRARY }),
    ("games grants the unspent to the first stopped game alone", Exports { games: first_alone, ..LIBRARY }),
    ("games grants the unspent to every stopped game", Exports { games: to_every_one, ..LIBRARY }),
    ("games grants the unspent without the share", Exports { games: without_share, ..LIBRARY }),
    ("games grants half of the unspent", Exports { games: half, ..LIBRARY }),
    ("games counts all shares as spent", Exports { games: shares_spent, ..LIBRARY }),
    ("games goes on with the last game first", Exports { games: backwards, ..LIBRARY }),
    ("games adds what a game left at its part's end to the unspent twice", Exports { games: part_twice, ..LIBRARY }),
    ("games adds what a game left at the limit to the unspent twice", Exports { games: limit_twice, ..LIBRARY }),
    ("games does not look at the limit in the second pass", Exports { games: no_limit, ..LIBRARY }),
    ("games counts the interval from the second pass on", Exports { games: interval_anew, ..LIBRARY }),
    ("games cuts the pool into eight parts always", Exports { games: eighths, ..LIBRARY }),
    ("games gives the last game what is over", Exports { games: over_to_last, ..LIBRARY }),
    ("games gives a record's result to the same one again", Exports { games: same_again, ..LIBRARY }),
    ("games counts eight results always", Exports { games: count_eight, ..LIBRARY }),
    ("games gives a result past the games", Exports { games: result_past, ..LIBRARY }),
    ("games gives a count with a refusal", Exports { games: count_refused, ..LIBRARY }),
    ("games gives a result with a refusal", Exports { games: result_refused, ..LIBRARY }),
    ("games lets the pool's first word in", Exports { games: reads_pool, ..LIBRARY }),
    ("games writes a word past the parts", Exports { games: writes_over, ..LIBRARY }),
    ("games writes to a pool that it refuses", Exports { games: writes_refused, ..LIBRARY }),
    ("games reads a ninth share", Exports { games: ninth_share, ..LIBRARY }),
    ("games writes to the shares", Exports { games: writes_shares, ..LIBRARY }),
    ("games reads a byte past the records", Exports { games: past_records, ..LIBRARY }),
    ("games cuts the records' length to 32 bits", Exports { games: length_cut, ..LIBRARY }),
    ("games cuts their number to 32 bits", Exports { games: number_cut, ..LIBRARY }),
];

impl Asked {
    /// The check of each refused record, and its game.
    unsafe fn refused_records(&self) -> Vec<(u32, u64)> {
        let call = self.call();
        let refusals = call.records.chunks_exact(LENGTH).map(record_refusal);
        refusals.zip(0..).filter_map(|(check, game)| check.map(|check| (check, game))).collect()
    }

    /// The sum of the shares of the games there are.
    unsafe fn sum(&self) -> u128 {
        sum(&self.shares_read())
    }

    /// The shares with 0 for the last game.
    unsafe fn shares_but_last(&self) -> [u64; MOST_GAMES] {
        let mut shares = *self.shares;
        shares[self.count() - 1] = 0;
        shares
    }

    /// A second pass in which the limit is tested each time that so many expansions have followed the share.
    unsafe fn tested_anew(&self, game: usize, granted: u64) -> ffi::ResultFields {
        let share = (*self.shares)[game];
        for times in 1..=200 {
            let result = self.lone_in(game, self.part(), u64::MAX, granted.min(share + times * self.interval));
            if result.cause == 1 && result.expanded < granted && result.allocated - result.freed > self.limit {
                return ffi::ResultFields { cause: 3, ..result };
            }
            if result.cause != 1 || result.expanded == granted {
                return result;
            }
        }
        self.lone(game, granted)
    }
}

fn sum(shares: &[u64]) -> u128 {
    shares.iter().map(|share| u128::from(*share)).sum()
}

/// A call of games that is refused with this code where none is due, if the condition holds.
macro_rules! games_refused {
    ($name:ident, |$lent:ident| $code_if:expr) => {
        games!($name, |$lent| match (games_refusal(&$lent.call()), $code_if) {
            (None, (code, true)) => refused(code, 0),
            _ => $lent.judge(),
        });
    };
}

games!(number_first, |lent| match lent.count() {
    1..=MOST_GAMES => lent.judge(),
    _ => refused(20, 0),
});
games!(records_first, |lent| match lent.refused_records().into_iter().min() {
    Some((check, game)) if lent.length.is_multiple_of(LENGTH) => refused(check, game),
    _ => lent.judge(),
});
games!(nine, |lent| match lent.count() {
    9.. if lent.length.is_multiple_of(LENGTH) => Asked { length: LENGTH * MOST_GAMES, ..lent }.judge(),
    _ => lent.judge(),
});
games_then!(lowest_game, |lent, a| if let 2..=6 | 22 = a.code {
    (a.code, a.index) = lent.refused_records()[0];
});
games_then!(last_game, |lent, a| if let 2..=6 | 22 = a.code {
    let last = lent.refused_records().into_iter().rfind(|(check, _)| *check == a.code);
    a.index = last.map_or(0, |(_, game)| game);
});
games_then!(no_index, |lent, a| a.index = 0);
games_then!(index_from_one, |lent, a| a.index += u64::from(matches!(a.code, 2..=6 | 22)));
games_then!(pool_first, |lent, a| if matches!(a.code, 2..=6 | 22) && lent.part() == 0 {
    a = refused(8, 0);
});
games_then!(whole_by_8, |lent, a| if a.code == 8 && lent.k >= NODE_WORDS {
    a = ffi::GamesAnswer { count: lent.count() as u64, ..refused(0, 0) };
});
games!(part_by_9, |lent| {
    let most = NODE_WORDS * LARGEST_POOL as usize;
    match lent.count() {
        2..=MOST_GAMES => Asked { k: lent.k.min(most), ..lent }.judge(),
        _ => lent.judge(),
    }
});
games_then!(settings_first, |lent, a| if a.code == 8 && !is_in_range(lent) {
    a.code = 10;
});
games_refused!(range_of_all, |lent| (10, (*lent.shares).into_iter().any(|share| share > LARGEST_BUDGET)));
games_then!(range_but_last, |lent, a| if a.code == 10 && is_in_range(lent) {
    a = lent.judge_with(lent.shares_but_last());
});
games!(any_allowance, |lent| Asked { allowance: lent.allowance.min(LARGEST_BUDGET), ..lent }.judge());
games_refused!(sum_of_all, |lent| (20, sum(&*lent.shares) > u128::from(lent.allowance)));
games_refused!(sum_below, |lent| (20, lent.sum() == u128::from(lent.allowance)));
games_then!(sum_above, |lent, a| if a.code == 20 && is_one_above(lent) {
    a = Asked { allowance: lent.allowance + 1, ..lent }.judge();
});
games_then!(sum_first, |lent, a| if a.code == 10 && lent.sum() > u128::from(lent.allowance) {
    a.code = 20;
});

games!(one_pass, |lent| lent.judge_by(Passes { goes_on: |_| false, ..AS_DUE }));
games!(first_alone, |lent| lent.judge_by(Passes { left: |_, _, _| 0, ..AS_DUE }));
games!(to_every_one, |lent| lent.judge_by(Passes { left: |unspent, _, _| unspent, ..AS_DUE }));
games!(without_share, |lent| lent.judge_by(Passes { granted: |_, unspent| unspent, ..AS_DUE }));
games!(half, |lent| lent.judge_by(Passes { granted: |share, unspent| share + unspent.div_ceil(2), ..AS_DUE }));
games!(shares_spent, |lent| {
    lent.judge_by(Passes { unspent: |allowance, shares, _| allowance - shares.iter().sum::<u64>(), ..AS_DUE })
});
games!(backwards, |lent| lent.judge_by(Passes { backwards: true, ..AS_DUE }));
// These two run a game again that its part or the limit stopped. It stops there again, so its own result does not show
// it. But what it left of its share is in the unspent since the first pass, and they add it once more.
games!(part_twice, |lent| lent.judge_by(Passes { goes_on: |cause| matches!(cause, 1 | 2), ..AS_DUE }));
games!(limit_twice, |lent| lent.judge_by(Passes { goes_on: |cause| matches!(cause, 1 | 3), ..AS_DUE }));
games!(no_limit, |lent| {
    let without = |game, budget| lent.lone_in(game, lent.part(), u64::MAX, budget);
    lent.judge_as(AS_DUE, |game, budget| lent.lone(game, budget), without)
});
games!(interval_anew, |lent| {
    lent.judge_as(AS_DUE, |game, budget| lent.lone(game, budget), |game, granted| lent.tested_anew(game, granted))
});
games!(eighths, |lent| {
    let nodes = (lent.k / NODE_WORDS / MOST_GAMES).max(1);
    let lone = |game, budget| lent.lone_in(game, nodes, lent.limit, budget);
    lent.judge_as(AS_DUE, lone, lone)
});
games!(over_to_last, |lent| {
    let nodes = |game| match lent.count() - game {
        1 => lent.part() + lent.k / NODE_WORDS % lent.count(),
        _ => lent.part(),
    };
    let lone = |game, budget| lent.lone_in(game, nodes(game), lent.limit, budget);
    lent.judge_as(AS_DUE, lone, lone)
});
games_then!(same_again, |lent, a| if a.code == 0 {
    let records = lent.call().records;
    let records: Vec<&[u8]> = records.chunks(LENGTH).collect();
    for game in 0..records.len() {
        a.results[game] = a.results[records.iter().position(|record| *record == records[game]).unwrap_or(game)];
    }
});

games_then!(count_eight, |lent, a| a.count = if a.code == 0 { MOST_GAMES as u64 } else { 0 });
games_then!(result_past, |lent, a| if a.code == 0 && lent.count() < MOST_GAMES {
    a.results[lent.count()] = a.results[0];
});
games_then!(count_refused, |lent, a| a.count = lent.count() as u64);
games_then!(result_refused, |lent, a| a.results[0].cause += u32::from(a.code == 20));
games!(reads_pool, |lent| {
    let seen = if lent.k > 0 { *lent.words % 2 } else { 0 };
    let mut a = lent.judge();
    a.results[0].allocated += if a.code == 0 { u64::from(seen) } else { 0 };
    a
});
games_then!(writes_over, |lent, a| if a.code == 0 && lent.words_in_parts() < lent.k {
    *lent.words.add(lent.words_in_parts()) ^= 1;
});
games_then!(writes_refused, |lent, a| if a.code == 20 && lent.k > 0 {
    *lent.words ^= 1;
});
games_then!(ninth_share, |lent, a| (lent.shares as *const u64).wrapping_add(MOST_GAMES).read_volatile());
games_then!(writes_shares, |lent, a| lent.shares.cast_mut().write_volatile(*lent.shares));
games_then!(past_records, |lent, a| lent.records.wrapping_add(lent.length).read_volatile());
games!(length_cut, |lent| Asked { length: lent.length as u32 as usize, ..lent }.judge());
games!(number_cut, |lent| {
    let cut = LENGTH * (lent.count() as u32 as usize) + lent.length % LENGTH;
    Asked { length: cut, ..lent }.judge()
});

/// Nothing but the shares is out of its range.
fn is_in_range(lent: Asked) -> bool {
    lent.rule <= LARGEST_RULE && (1..=LARGEST_INTERVAL).contains(&lent.interval) && lent.allowance <= LARGEST_BUDGET
}

/// The shares of one to eight games sum to one above the allowance.
unsafe fn is_one_above(lent: Asked) -> bool {
    (1..=MOST_GAMES).contains(&lent.count()) && lent.sum() == u128::from(lent.allowance) + 1
}
