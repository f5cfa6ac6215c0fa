//! What simulated players are lent, so that a wrong library can do them otherwise (`wrong_players`, `wrong_turns`).

use crate::players::Players;
use crate::record_calls::{nodes, Loads};
use crate::search_calls::given;
use calls::record::LENGTH;
use calls::table::simulate_refusal;
use calls::{Report, Simulation};
use std::slice::from_raw_parts;
use uttt::ffi;

#[derive(Clone, Copy)]
pub struct Asked {
    pub record: *const u8,
    pub n: usize,
    pub words: *mut u32,
    pub k: usize,
    pub seed: u64,
    pub games: u64,
    pub limit: u64,
    pub budgets: [u64; 2],
    pub interval: u64,
    pub staying: bool,
    pub margin: f64,
}

impl Asked {
    pub unsafe fn simulate(self) -> ffi::SimulateAnswer {
        let Asked { record, n, words, k, seed, games, limit, budgets: [x, o], interval, staying, margin } = self;
        ffi::uttt_simulate(record, n, words, k, seed, games, limit, x, o, interval, staying, margin)
    }

    /// The call as the table reads it; of a long record the first bytes alone.
    pub unsafe fn simulation(&self) -> Simulation {
        let length = self.n.min(LENGTH + 1);
        let record = if length == 0 { vec![] } else { from_raw_parts(self.record, length).to_vec() };
        let Asked { seed, games, limit, budgets, interval, .. } = *self;
        let (pool, stay) = (nodes(self.k), given(self.staying, self.margin));
        Simulation { record, seed, games, pool, limit, interval, budgets, stay }
    }

    pub fn is_bad(&self) -> bool {
        given(self.staying, self.margin).is_refused()
    }

    pub unsafe fn is_finished(&self) -> bool {
        self.simulation().is_finished()
    }

    /// The answer with the games played so, where it is not refused.
    pub unsafe fn simulate_by(self, players: Players) -> ffi::SimulateAnswer {
        self.simulate_in(self, players)
    }

    /// The same with the searches of another call.
    pub unsafe fn simulate_in(self, other: Asked, players: Players) -> ffi::SimulateAnswer {
        let a = self.simulate();
        let Asked { words, k, limit, interval, staying, margin, .. } = other;
        let lone = |record: &[u8; LENGTH], rule, budget| {
            let from = record.as_ptr();
            ffi::uttt_search(from, LENGTH, words, k, rule, limit, budget, interval, staying, margin).result
        };
        match a.code {
            0 => reported(players.report(&self.simulation(), lone)),
            _ => a,
        }
    }
}

/// An answer with this report.
pub fn reported(report: Report) -> ffi::SimulateAnswer {
    let Report { x_wins, o_wins, draws, expanded } = report;
    ffi::SimulateAnswer { code: 0, index: 0, x_wins, o_wins, draws, expanded }
}

/// A refusal without a report.
pub fn refused(code: u32) -> ffi::SimulateAnswer {
    ffi::SimulateAnswer { code, ..reported(Report::default()) }
}

impl Loads for Asked {
    type Answer = ffi::SimulateAnswer;

    fn record(&mut self) -> (&mut *const u8, usize) {
        (&mut self.record, self.n)
    }

    unsafe fn call(self) -> ffi::SimulateAnswer {
        self.simulate()
    }

    fn refused(self, code: u32) -> ffi::SimulateAnswer {
        refused(code)
    }

    fn code(answer: &ffi::SimulateAnswer) -> u32 {
        answer.code
    }

    unsafe fn refusal_with(&self, record: &[u8]) -> Option<u32> {
        simulate_refusal(&Simulation { record: record.to_vec(), ..self.simulation() })
    }
}

/// Simulated players that do it otherwise.
macro_rules! simulate {
    ($name:ident, |$lent:ident| $done:expr) => {
        #[allow(clippy::too_many_arguments)]
        unsafe extern "C" fn $name(
            record: *const u8,
            n: usize,
            words: *mut u32,
            k: usize,
            seed: u64,
            games: u64,
            limit: u64,
            x_budget: u64,
            o_budget: u64,
            interval: u64,
            staying: bool,
            margin: f64,
        ) -> ffi::SimulateAnswer {
            let budgets = [x_budget, o_budget];
            let $lent = $crate::player_calls::Asked {
                record,
                n,
                words,
                k,
                seed,
                games,
                limit,
                budgets,
                interval,
                staying,
                margin,
            };
            $done
        }
    };
}

/// Simulated players with something done after them.
macro_rules! simulate_then {
    ($name:ident, |$lent:ident, $a:ident| $after:expr) => {
        simulate!($name, |$lent| {
            #[allow(unused_mut)]
            let mut $a = $lent.simulate();
            $after;
            $a
        });
    };
}

/// Simulated players that give this code, where there is one, in the place of another.
macro_rules! simulate_code {
    ($name:ident, |$lent:ident, $code:ident| $other:expr) => {
        simulate!($name, |$lent| {
            let a = $lent.simulate();
            let $code = a.code;
            $other.map_or(a, $crate::player_calls::refused)
        });
    };
}

pub(crate) use {simulate, simulate_code, simulate_then};
