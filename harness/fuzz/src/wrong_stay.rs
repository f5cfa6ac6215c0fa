//! Libraries with one thing wrong in staying on a line, as `wrong` has them: the proved exports with another setting, or
//! with something done after them.

use crate::book_calls::{add, add_code, Add};
use crate::exports::{Exports, LIBRARY};
use crate::game_calls::{games, games_then, refused, Asked as Games};
use crate::passes::AS_DUE;
use crate::search_calls::{self, full, full_then, given, search, search_then, Asked};
use calls::games::MOST_GAMES;
use calls::record::{Position, LENGTH};
use calls::table::finished;
use uttt::ffi;

pub const ALL: [(&str, Exports); 46] = [
    ("search takes NaN for margin 0", Exports { search: nan, ..LIBRARY }),
    ("search takes infinity for margin 1", Exports { search: infinity, ..LIBRARY }),
    ("search takes a margin below 0 for 0", Exports { search: below, ..LIBRARY }),
    ("search takes a margin above 1 for 1", Exports { search: above, ..LIBRARY }),
    ("search takes 257/256 for 1", Exports { search: above_by_one, ..LIBRARY }),
    ("search takes halves of a 256th", Exports { search: halves, ..LIBRARY }),
    ("search takes the float after a multiple", Exports { search: float_after, ..LIBRARY }),
    ("search takes the float before a multiple", Exports { search: float_before, ..LIBRARY }),
    ("search takes subnormal margins for 0", Exports { search: subnormal, ..LIBRARY }),
    ("search cuts the margin to 32 bits", Exports { search: cut, ..LIBRARY }),
    ("search refuses margin -0", Exports { search: minus_zero, ..LIBRARY }),
    ("search refuses margin 0", Exports { search: zero, ..LIBRARY }),
    ("search refuses margin 1", Exports { search: one, ..LIBRARY }),
    ("search checks the margin where staying is off", Exports { search: checked_off, ..LIBRARY }),
    ("search stays where staying is off", Exports { search: stays_off, ..LIBRARY }),
    ("search does not stay", Exports { search: never, ..LIBRARY }),
    ("search takes margin 0 for off", Exports { search: zero_for_off, ..LIBRARY }),
    ("search takes margin 255/256 for 1", Exports { search: nearly_one, ..LIBRARY }),
    ("search checks the margin before the record", Exports { search: before_record, ..LIBRARY }),
    ("search checks the margin before the pool", Exports { search: before_pool, ..LIBRARY }),
    ("search checks the margin before the settings", Exports { search: before_settings, ..LIBRARY }),
    ("search does not check the margin of a finished game", Exports { search: of_finished, ..LIBRARY }),
    ("search gives an index with 21", Exports { search: with_index, ..LIBRARY }),
    ("search gives a field with 21", Exports { search: with_field, ..LIBRARY }),
    ("search writes to a pool with 21", Exports { search: with_write, ..LIBRARY }),
    ("full verdict does not check the margin", Exports { full: full_any, ..LIBRARY }),
    ("full verdict checks the margin where staying is off", Exports { full: full_off, ..LIBRARY }),
    ("full verdict checks the margin before the settings", Exports { full: full_before_settings, ..LIBRARY }),
    ("full verdict writes to a pool with 21", Exports { full: full_write, ..LIBRARY }),
    ("games checks the margin before their number", Exports { games: before_number, ..LIBRARY }),
    ("games checks the margin before the records", Exports { games: before_records, ..LIBRARY }),
    ("games checks the margin before the settings", Exports { games: before_ranges, ..LIBRARY }),
    ("games checks the margin after the shares", Exports { games: after_shares, ..LIBRARY }),
    ("games refuses margin -0", Exports { games: games_minus_zero, ..LIBRARY }),
    ("games checks the margin where staying is off", Exports { games: games_off, ..LIBRARY }),
    ("games does not stay in the second pass", Exports { games: first_pass_alone, ..LIBRARY }),
    ("games stays in the second pass alone", Exports { games: second_pass_alone, ..LIBRARY }),
    ("games stays in the first game alone", Exports { games: first_game_alone, ..LIBRARY }),
    ("games writes to a pool with 21", Exports { games: games_write, ..LIBRARY }),
    ("add checks the margin before the caller", Exports { add: add_before_caller, ..LIBRARY }),
    ("add checks the margin before the settings", Exports { add: add_before_settings, ..LIBRARY }),
    ("add checks the margin after the book", Exports { add: add_after_17, ..LIBRARY }),
    ("add checks the margin after a full book", Exports { add: add_after_18, ..LIBRARY }),
    ("add finds a held pair before it checks the margin", Exports { add: add_held, ..LIBRARY }),
    ("add checks the margin where staying is off", Exports { add: add_off, ..LIBRARY }),
    ("add writes to a pool with 21", Exports { add: add_write, ..LIBRARY }),
];

/// Check 21 fails.
fn bad(staying: bool, margin: f64) -> bool {
    given(staying, margin).is_refused()
}

/// The float itself, or the one after it or before it if that is a margin.
fn next(margin: f64, other: u64) -> f64 {
    let next = f64::from_bits(other);
    if bad(true, next) {
        margin
    } else {
        next
    }
}

impl Asked {
    fn is_bad(&self) -> bool {
        bad(self.staying, self.margin)
    }

    /// The same with the setting off.
    fn off(self) -> Asked {
        Asked { staying: false, ..self }
    }

    unsafe fn is_finished(&self) -> bool {
        self.n == LENGTH && finished(&Position::read(&*self.record.cast()))
    }
}

impl Games {
    fn is_bad(&self) -> bool {
        bad(self.staying, self.margin)
    }

    /// The same with the setting off.
    fn off(self) -> Games {
        Games { staying: false, ..self }
    }

    /// The answer with these searches of a game in the two passes.
    unsafe fn judge_in(self, first: impl Fn(usize) -> Games, second: impl Fn(usize) -> Games) -> ffi::GamesAnswer {
        let (one, other) =
            (|game, budget| first(game).lone(game, budget), |game, budget| second(game).lone(game, budget));
        self.judge_as(AS_DUE, one, other)
    }
}

impl Add {
    fn is_bad(&self) -> bool {
        bad(self.staying, self.margin)
    }
}

/// A search that takes a margin for another one.
macro_rules! search_with {
    ($name:ident, |$m:ident| $other:expr) => {
        search!($name, |lent| {
            let $m: f64 = lent.margin;
            Asked { margin: if lent.staying { $other } else { $m }, ..lent }.search()
        });
    };
}

/// A search that is refused with 21 if the condition holds.
macro_rules! search_21 {
    ($name:ident, |$lent:ident, $code:ident| $holds:expr) => {
        search_then!($name, |$lent, a| {
            let $code = a.code;
            if $holds {
                a = search_calls::refused(21);
            }
        });
    };
}

/// A call of games that is refused with 21 if the condition holds.
macro_rules! games_21 {
    ($name:ident, |$lent:ident, $code:ident| $holds:expr) => {
        games_then!($name, |$lent, a| {
            let $code = a.code;
            if $holds {
                a = refused(21, 0);
            }
        });
    };
}

search_with!(nan, |m| if m.is_nan() { 0.0 } else { m });
search_with!(infinity, |m| if m == f64::INFINITY { 1.0 } else { m });
search_with!(below, |m| if m < 0.0 { 0.0 } else { m });
search_with!(above, |m| if m > 1.0 { 1.0 } else { m });
search_with!(above_by_one, |m| if m == 257.0 / 256.0 { 1.0 } else { m });
search_with!(halves, |m| if (512.0 * m).fract() == 0.0 { (256.0 * m).floor() / 256.0 } else { m });
search_with!(float_after, |m| next(m, m.to_bits().wrapping_sub(1)));
search_with!(float_before, |m| next(m, m.to_bits().wrapping_add(1)));
search_with!(subnormal, |m| if m.is_subnormal() { 0.0 } else { m });
search_with!(cut, |m| f64::from(m as f32));
search_with!(nearly_one, |m| if m == 255.0 / 256.0 { 1.0 } else { m });
search_21!(minus_zero, |lent, code| code == 0 && lent.staying && lent.margin.to_bits() == 1 << 63);
search_21!(zero, |lent, code| code == 0 && lent.staying && lent.margin == 0.0);
search_21!(one, |lent, code| code == 0 && lent.staying && lent.margin == 1.0);
search!(checked_off, |lent| Asked { staying: lent.staying || bad(true, lent.margin), ..lent }.search());
search!(stays_off, |lent| Asked { staying: lent.staying || !bad(true, lent.margin), ..lent }.search());
search!(never, |lent| if lent.is_bad() { lent.search() } else { lent.off().search() });
search!(zero_for_off, |lent| Asked { staying: lent.staying && lent.margin != 0.0, ..lent }.search());
search_21!(before_record, |lent, code| code <= 6 && lent.is_bad());
search_21!(before_pool, |lent, code| matches!(code, 8 | 9) && lent.is_bad());
search_21!(before_settings, |lent, code| code == 10 && lent.is_bad());
search!(of_finished, |lent| if lent.is_finished() { lent.off().search() } else { lent.search() });
search_then!(with_index, |lent, a| a.index = u64::from(a.code == 21));
search_then!(with_field, |lent, a| a.result.cause += u32::from(a.code == 21));
search_then!(with_write, |lent, a| if a.code == 21 {
    *lent.words ^= 1;
});

full!(full_any, |lent| if lent.is_bad() { lent.off().full() } else { lent.full() });
full!(full_off, |lent| Asked { staying: lent.staying || bad(true, lent.margin), ..lent }.full());
full_then!(full_before_settings, |lent, a| if a.code == 10 && lent.is_bad() {
    a.code = 21;
});
full_then!(full_write, |lent, a| if a.code == 21 {
    *lent.words ^= 1;
});

games_21!(before_number, |lent, code| code == 20 && lent.is_bad() && has_no_number(&lent));
games_21!(before_records, |lent, code| matches!(code, 2..=6 | 22) && lent.is_bad());
games_21!(before_ranges, |lent, code| code == 10 && lent.is_bad());
games!(after_shares, |lent| match lent.off().judge() {
    a if a.code == 20 => a,
    _ => lent.judge(),
});
games_21!(games_minus_zero, |lent, code| code == 0 && lent.staying && lent.margin.to_bits() == 1 << 63);
games!(games_off, |lent| Games { staying: lent.staying || bad(true, lent.margin), ..lent }.judge());
games!(first_pass_alone, |lent| lent.judge_in(|_| lent, |_| lent.off()));
games!(second_pass_alone, |lent| lent.judge_in(|_| lent.off(), |_| lent));
games!(first_game_alone, |lent| {
    let of = |game| if game == 0 { lent } else { lent.off() };
    lent.judge_in(of, of)
});
games_then!(games_write, |lent, a| if a.code == 21 {
    *lent.words ^= 1;
});

add_code!(add_before_caller, |lent, code| (code == 19 && lent.is_bad()).then_some(21));
add_code!(add_before_settings, |lent, code| (code == 10 && lent.is_bad()).then_some(21));
add_code!(add_after_17, |lent, code| (code == 21 && lent.asked.is_broken()).then_some(17));
add_code!(add_after_18, |lent, code| (code == 21 && lent.asked.is_full()).then_some(18));
add!(add_held, |lent| {
    let a = lent.add();
    let found = lent.asked.lookup().verdict;
    if a.code == 21 && found != 0 {
        return ffi::AddAnswer { verdict: found, ..lent.refused(0) };
    }
    a
});
add!(add_off, |lent| Add { staying: lent.staying || bad(true, lent.margin), ..lent }.add());
add!(add_write, |lent| {
    let a = lent.add();
    if a.code == 21 {
        *lent.words ^= 1;
    }
    a
});

/// There is no game, or there are over eight.
fn has_no_number(games: &Games) -> bool {
    !(1..=MOST_GAMES).contains(&games.count())
}
