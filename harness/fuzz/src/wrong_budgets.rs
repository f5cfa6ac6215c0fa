//! Libraries with one thing wrong in the range of budgets, shares and allowances, as `wrong` has them: the proved exports
//! with another number, or with another refusal.

use crate::book_calls::{add, add_code, Add};
use crate::exports::{Exports, LIBRARY};
use crate::game_calls::{games, games_then, refused, Asked as Games};
use crate::search_calls::{self, full, full_then, given, search, search_then, Asked};
use calls::games::MOST_GAMES;
use calls::table::LARGEST_BUDGET;
use uttt::ffi;

/// The largest budget of a range that once was.
const LARGEST_ONCE: u64 = 1_000_000_000_000;

pub const ALL: [(&str, Exports); 25] = [
    ("search takes any budget", Exports { search: search_any, ..LIBRARY }),
    ("search takes a budget that is one too large", Exports { search: search_one_more, ..LIBRARY }),
    ("search takes budgets up to 1000000000000", Exports { search: search_once, ..LIBRARY }),
    ("search cuts the budget to 32 bits", Exports { search: search_cut, ..LIBRARY }),
    ("search refuses the largest budget", Exports { search: search_largest, ..LIBRARY }),
    ("search checks the budget before the pool", Exports { search: search_before_pool, ..LIBRARY }),
    ("search checks the budget after the margin", Exports { search: search_after_margin, ..LIBRARY }),
    ("full verdict takes any budget", Exports { full: full_any, ..LIBRARY }),
    ("full verdict cuts the budget to 32 bits", Exports { full: full_cut, ..LIBRARY }),
    ("full verdict refuses the largest budget", Exports { full: full_largest, ..LIBRARY }),
    ("add takes any budget", Exports { add: add_any, ..LIBRARY }),
    ("add cuts the budget to 32 bits", Exports { add: add_cut, ..LIBRARY }),
    ("add refuses the largest budget", Exports { add: add_largest, ..LIBRARY }),
    ("add finds a held pair before it checks the budget", Exports { add: add_held, ..LIBRARY }),
    ("add checks the budget after the book", Exports { add: add_after_17, ..LIBRARY }),
    ("add checks the budget after a full book", Exports { add: add_after_18, ..LIBRARY }),
    ("games takes a share that is one too large", Exports { games: share_one_more, ..LIBRARY }),
    ("games takes shares up to 1000000000000", Exports { games: share_once, ..LIBRARY }),
    ("games cuts the shares to 32 bits", Exports { games: share_cut, ..LIBRARY }),
    ("games refuses the largest share", Exports { games: share_largest, ..LIBRARY }),
    ("games checks the shares' range after the margin", Exports { games: share_after_margin, ..LIBRARY }),
    ("games takes an allowance that is one too large", Exports { games: allowance_one_more, ..LIBRARY }),
    ("games takes allowances up to 1000000000000", Exports { games: allowance_once, ..LIBRARY }),
    ("games cuts the allowance to 32 bits", Exports { games: allowance_cut, ..LIBRARY }),
    ("games refuses the largest allowance", Exports { games: allowance_largest, ..LIBRARY }),
];

/// What is taken for a budget that is too large: none at all, so that the call ends at once.
const NONE: u64 = 0;

fn any(budget: u64) -> u64 {
    if budget > LARGEST_BUDGET {
        NONE
    } else {
        budget
    }
}

fn one_more(budget: u64) -> u64 {
    if budget == LARGEST_BUDGET + 1 {
        NONE
    } else {
        budget
    }
}

fn once(budget: u64) -> u64 {
    if budget > LARGEST_ONCE {
        budget
    } else {
        any(budget)
    }
}

fn cut(budget: u64) -> u64 {
    if budget > LARGEST_BUDGET && u64::from(budget as u32) <= LARGEST_BUDGET {
        NONE
    } else {
        budget
    }
}

/// The budget of limit, budget and interval.
fn with([limit, budget, interval]: [u64; 3], other: fn(u64) -> u64) -> [u64; 3] {
    [limit, other(budget), interval]
}

impl Asked {
    fn with(self, other: fn(u64) -> u64) -> Asked {
        Asked { limits: with(self.limits, other), ..self }
    }

    fn is_over(&self) -> bool {
        self.limits[1] > LARGEST_BUDGET
    }

    fn has_no_margin(&self) -> bool {
        given(self.staying, self.margin).is_refused()
    }
}

impl Add {
    fn with(self, other: fn(u64) -> u64) -> Add {
        Add { limits: with(self.limits, other), ..self }
    }

    fn is_over(&self) -> bool {
        self.limits[1] > LARGEST_BUDGET
    }
}

impl Games {
    unsafe fn judge_shares(self, other: fn(u64) -> u64) -> ffi::GamesAnswer {
        self.judge_with((*self.shares).map(other))
    }

    unsafe fn judge_allowance(self, other: fn(u64) -> u64) -> ffi::GamesAnswer {
        Games { allowance: other(self.allowance), ..self }.judge_with(
            // Where the allowance has become none, no share is above it.
            if other(self.allowance) == self.allowance { *self.shares } else { [NONE; MOST_GAMES] },
        )
    }

    unsafe fn has_share(&self, is: impl Fn(u64) -> bool) -> bool {
        self.shares_read().into_iter().any(is)
    }
}

search!(search_any, |lent| lent.with(any).search());
search!(search_one_more, |lent| lent.with(one_more).search());
search!(search_once, |lent| lent.with(once).search());
search!(search_cut, |lent| lent.with(cut).search());
search_then!(search_largest, |lent, a| if a.code == 0 && lent.limits[1] == LARGEST_BUDGET {
    a = search_calls::refused(10);
});
search_then!(search_before_pool, |lent, a| if matches!(a.code, 8 | 9) && lent.is_over() {
    a = search_calls::refused(10);
});
search_then!(search_after_margin, |lent, a| if a.code == 10 && lent.is_over() && lent.has_no_margin() {
    a = search_calls::refused(21);
});

full!(full_any, |lent| lent.with(any).full());
full!(full_cut, |lent| lent.with(cut).full());
full_then!(full_largest, |lent, a| if a.code == 0 && lent.limits[1] == LARGEST_BUDGET {
    a.code = 10;
});

add!(add_any, |lent| lent.with(any).add());
add!(add_cut, |lent| lent.with(cut).add());
add_code!(add_largest, |lent, code| (code == 0 && lent.limits[1] == LARGEST_BUDGET).then_some(10));
add!(add_held, |lent| if lent.asked.places_held().is_empty() { lent.add() } else { lent.with(any).add() });
add_code!(add_after_17, |lent, code| (code == 10 && lent.is_over() && lent.asked.is_broken()).then_some(17));
add_code!(add_after_18, |lent, code| (code == 10 && lent.is_over() && lent.asked.is_full()).then_some(18));

games!(share_one_more, |lent| lent.judge_shares(one_more));
games!(share_once, |lent| lent.judge_shares(once));
games!(share_cut, |lent| lent.judge_shares(cut));
games_then!(share_largest, |lent, a| if a.code == 0 && lent.has_share(|share| share == LARGEST_BUDGET) {
    a = refused(10, 0);
});
games_then!(share_after_margin, |lent, a| {
    let over = lent.has_share(|share| share > LARGEST_BUDGET);
    if a.code == 10 && over && given(lent.staying, lent.margin).is_refused() {
        a = refused(21, 0);
    }
});
games!(allowance_one_more, |lent| lent.judge_allowance(one_more));
games!(allowance_once, |lent| lent.judge_allowance(once));
games!(allowance_cut, |lent| lent.judge_allowance(cut));
games_then!(allowance_largest, |lent, a| if a.code == 0 && lent.allowance == LARGEST_BUDGET {
    a = refused(10, 0);
});
