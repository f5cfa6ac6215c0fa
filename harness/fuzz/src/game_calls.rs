//! What a call of games is lent, so that a wrong library can do it otherwise (`wrong_games`, `wrong_stay`,
//! `wrong_budgets`, `wrong_game_choices`).

use crate::passes::Passes;
use crate::search_calls::given;
use calls::games::MOST_GAMES;
use calls::record::LENGTH;
use calls::table::LARGEST_BUDGET;
use calls::Games;
use std::slice::from_raw_parts;
use uttt::ffi;

pub const NODE_WORDS: usize = 5;

#[derive(Clone, Copy)]
pub struct Asked {
    pub records: *const u8,
    pub length: usize,
    pub words: *mut u32,
    pub k: usize,
    pub shares: *const [u64; MOST_GAMES],
    pub rule: u64,
    pub limit: u64,
    pub allowance: u64,
    pub interval: u64,
    pub staying: bool,
    pub margin: f64,
}

impl Asked {
    pub unsafe fn judge(self) -> ffi::GamesAnswer {
        let Asked { records, length, words, k, shares, rule, limit, allowance, interval, staying, margin } = self;
        ffi::uttt_judge_games(records, length, words, k, shares, rule, limit, allowance, interval, staying, margin)
    }

    /// The same with other shares.
    pub unsafe fn judge_with(self, shares: [u64; MOST_GAMES]) -> ffi::GamesAnswer {
        Asked { shares: &shares, ..self }.judge()
    }

    /// The call as the table reads it; of a long slice the first records alone.
    pub unsafe fn call(&self) -> Games {
        let bytes = self.length.min(LENGTH * MOST_GAMES * MOST_GAMES);
        let records = if bytes == 0 { vec![] } else { from_raw_parts(self.records, bytes).to_vec() };
        let Asked { rule, limit, allowance, interval, .. } = *self;
        let (pool, stay) = ((self.k / NODE_WORDS) as u64, given(self.staying, self.margin));
        Games { records, rule, pool, limit, allowance, interval, shares: *self.shares, stay }
    }

    pub fn count(&self) -> usize {
        self.length / LENGTH
    }

    /// The nodes of a game's part.
    pub fn part(&self) -> usize {
        self.k / NODE_WORDS / self.count()
    }

    /// How many words all parts have.
    pub fn words_in_parts(&self) -> usize {
        NODE_WORDS * self.part() * self.count()
    }

    pub unsafe fn shares_read(&self) -> Vec<u64> {
        let shares = *self.shares;
        shares[..self.count().min(MOST_GAMES)].to_vec()
    }

    /// The search of a game, in its part of the pool.
    pub unsafe fn lone(&self, game: usize, budget: u64) -> ffi::ResultFields {
        self.lone_in(game, self.part(), self.limit, budget)
    }

    /// The search of a game in a part of so many nodes, which begins where the game's begins, under another limit.
    pub unsafe fn lone_in(&self, game: usize, nodes: usize, limit: u64, budget: u64) -> ffi::ResultFields {
        let words = self.words.add(NODE_WORDS * self.part() * game);
        let record = self.records.add(LENGTH * game);
        let (k, budget) = (NODE_WORDS * nodes, budget.min(LARGEST_BUDGET));
        let Asked { rule, interval, staying, margin, .. } = *self;
        ffi::uttt_search(record, LENGTH, words, k, rule, limit, budget, interval, staying, margin).result
    }

    /// The answer with the passes done so, where none is refused.
    pub unsafe fn judge_by(self, passes: Passes) -> ffi::GamesAnswer {
        self.judge_as(passes, |game, budget| self.lone(game, budget), |game, budget| self.lone(game, budget))
    }

    /// The same with other searches in each pass.
    pub unsafe fn judge_as(
        self,
        passes: Passes,
        first: impl Fn(usize, u64) -> ffi::ResultFields,
        second: impl Fn(usize, u64) -> ffi::ResultFields,
    ) -> ffi::GamesAnswer {
        let mut a = self.judge();
        if a.code == 0 {
            let results = passes.results(&self.shares_read(), self.allowance, first, second);
            a.results[..results.len()].copy_from_slice(&results);
        }
        a
    }
}

/// A refusal without a result.
pub fn refused(code: u32, index: u64) -> ffi::GamesAnswer {
    ffi::GamesAnswer { code, index, count: 0, results: Default::default() }
}

/// A call of games that is done otherwise.
macro_rules! games {
    ($name:ident, |$lent:ident| $done:expr) => {
        #[allow(clippy::too_many_arguments)]
        unsafe extern "C" fn $name(
            records: *const u8,
            length: usize,
            words: *mut u32,
            k: usize,
            shares: *const [u64; MOST_GAMES],
            rule: u64,
            limit: u64,
            allowance: u64,
            interval: u64,
            staying: bool,
            margin: f64,
        ) -> ffi::GamesAnswer {
            let $lent = $crate::game_calls::Asked {
                records,
                length,
                words,
                k,
                shares,
                rule,
                limit,
                allowance,
                interval,
                staying,
                margin,
            };
            $done
        }
    };
}

/// A call of games with something done after it.
macro_rules! games_then {
    ($name:ident, |$lent:ident, $a:ident| $after:expr) => {
        games!($name, |$lent| {
            #[allow(unused_mut)]
            let mut $a = $lent.judge();
            $after;
            $a
        });
    };
}

pub(crate) use {games, games_then};
