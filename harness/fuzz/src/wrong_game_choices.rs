//! Libraries with one thing wrong in check 22 of games judged together, as `wrong` has them: the proved export of other
//! records, or with another refusal.

use crate::exports::{Exports, LIBRARY};
use crate::game_calls::{games, games_then, refused, Asked};
use crate::wrong_choices::{is_empty, named, none_drawn, none_won, refused_for, whatever_the_target, CHECK};
use calls::games::MOST_GAMES;
use calls::record::{Position, LENGTH};
use calls::table::{games_refusal, record_refusal};
use calls::Games;
use uttt::ffi;

pub const ALL: [(&str, Exports); 19] = [
    ("games skips check 22", Exports { games: games_skips, ..LIBRARY }),
    ("games makes check 22 of the first game alone", Exports { games: games_first_alone, ..LIBRARY }),
    ("games skips check 22 of the last game", Exports { games: games_but_last, ..LIBRARY }),
    ("games refuses the empty game with 22", Exports { games: games_empty, ..LIBRARY }),
    ("games takes a drawn board for one in play in check 22", Exports { games: games_drawn, ..LIBRARY }),
    ("games takes a won board for one in play in check 22", Exports { games: games_won, ..LIBRARY }),
    ("games refuses any target with 22 if no board is done", Exports { games: games_any, ..LIBRARY }),
    ("games makes check 22 of a game before 2 to 6 of the next", Exports { games: games_game_by_game, ..LIBRARY }),
    ("games makes check 22 before 6", Exports { games: games_before_6, ..LIBRARY }),
    ("games makes check 22 before 3", Exports { games: games_before_3, ..LIBRARY }),
    ("games makes check 22 before 20 for the number", Exports { games: games_before_number, ..LIBRARY }),
    ("games makes check 22 after 8", Exports { games: games_after_8, ..LIBRARY }),
    ("games makes check 22 after 10", Exports { games: games_after_10, ..LIBRARY }),
    ("games makes check 22 after 21", Exports { games: games_after_21, ..LIBRARY }),
    ("games makes check 22 after 20 for the shares", Exports { games: games_after_20, ..LIBRARY }),
    ("games gives index 0 with refusal 22", Exports { games: games_no_index, ..LIBRARY }),
    ("games names the last game of refusal 22", Exports { games: games_last, ..LIBRARY }),
    ("games writes to the pool before it refuses with 22", Exports { games: games_writes, ..LIBRARY }),
    ("games gives a result with refusal 22", Exports { games: games_result, ..LIBRARY }),
];

fn position(record: &[u8]) -> Position {
    Position::read(record.try_into().expect("a record's bytes"))
}

/// The records with board 0 as the target of those that the check refuses and that are to be named.
fn with_named(records: &[u8], of_game: impl Fn(usize) -> bool) -> Vec<u8> {
    let mut records = records.to_vec();
    for (game, record) in records.chunks_exact_mut(LENGTH).enumerate() {
        if of_game(game) && is_refused(record) {
            record.copy_from_slice(&named(&position(record)));
        }
    }
    records
}

/// The games whose record passes.
fn games_where(call: &Games, passes: impl Fn(&[u8]) -> bool) -> Vec<u64> {
    let records = (0..).zip(call.records.chunks_exact(LENGTH));
    records.filter(|(_, record)| passes(record)).map(|(game, _)| game).collect()
}

fn is_refused(record: &[u8]) -> bool {
    record_refusal(record) == Some(CHECK)
}

impl Asked {
    /// The call without the check of some games: as if their target were board 0.
    unsafe fn judge_named(self, of_game: impl Fn(usize) -> bool) -> ffi::GamesAnswer {
        if !(1..=MOST_GAMES).contains(&self.count()) {
            return self.judge();
        }
        let records = with_named(&self.call().records, of_game);
        Asked { records: records.as_ptr(), ..self }.judge()
    }

    /// The call with other records refused, too, where no earlier check refuses.
    unsafe fn judge_refusing(self, wrongly: fn(&Position) -> bool) -> ffi::GamesAnswer {
        let a = self.judge();
        if matches!(a.code, 1..=6) || !(1..=MOST_GAMES).contains(&self.count()) {
            return a;
        }
        let refusing = games_where(&self.call(), |record| refused_for(&position(record), wrongly));
        refusing.first().map_or(a, |game| refused(CHECK, *game))
    }

    /// The call with the check after a later one.
    unsafe fn judge_after(self, check: u32) -> ffi::GamesAnswer {
        let a = self.judge();
        let call = self.call();
        let later = games_refusal(&Games { records: with_named(&call.records, |_| true), ..call });
        match later {
            Some((code, _)) if a.code == CHECK && code == check => refused(check, 0),
            _ => a,
        }
    }

    /// The call with the check before an earlier one, for these.
    unsafe fn judge_before(self, earlier: impl Fn(&ffi::GamesAnswer) -> bool) -> ffi::GamesAnswer {
        let a = self.judge();
        match games_where(&self.call(), is_refused).first() {
            Some(game) if earlier(&a) => refused(CHECK, *game),
            _ => a,
        }
    }
}

games!(games_skips, |lent| lent.judge_named(|_| true));
games!(games_first_alone, |lent| lent.judge_named(|game| game > 0));
games!(games_but_last, |lent| lent.judge_named(|game| game + 1 == lent.count()));
games!(games_empty, |lent| lent.judge_refusing(is_empty));
games!(games_drawn, |lent| lent.judge_refusing(none_won));
games!(games_won, |lent| lent.judge_refusing(none_drawn));
games!(games_any, |lent| lent.judge_refusing(whatever_the_target));
games!(games_game_by_game, |lent| {
    let first = games_where(&lent.call(), is_refused).first().copied();
    lent.judge_before(|a| matches!(a.code, 2..=6) && first.is_some_and(|game| game < a.index))
});
games!(games_before_6, |lent| lent.judge_before(|a| a.code == 6));
games!(games_before_3, |lent| lent.judge_before(|a| a.code == 3));
games!(games_before_number, |lent| lent.judge_before(|a| a.code == 20 && lent.count() > MOST_GAMES));
games!(games_after_8, |lent| lent.judge_after(8));
games!(games_after_10, |lent| lent.judge_after(10));
games!(games_after_21, |lent| lent.judge_after(21));
games!(games_after_20, |lent| lent.judge_after(20));
games_then!(games_no_index, |_lent, a| if a.code == CHECK {
    a.index = 0;
});
games_then!(games_last, |lent, a| if a.code == CHECK {
    a.index = games_where(&lent.call(), is_refused).last().copied().unwrap_or(0);
});
games_then!(games_writes, |lent, a| if a.code == CHECK && lent.k > 0 {
    *lent.words ^= 1;
});
games_then!(games_result, |lent, a| a.results[0].cause += u32::from(a.code == CHECK));
