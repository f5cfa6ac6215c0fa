//! Libraries with one thing wrong in the checks of simulated players, in their report or in what they write, as `wrong`
//! has them: the proved export with another number, another refusal, or something done after it.

use crate::exports::{Exports, LIBRARY};
use crate::player_calls::{refused, simulate, simulate_code, simulate_then, Asked};
use crate::record_calls::nodes;
use crate::run::{NODE_BYTES, WORD_BYTES};
use crate::search_calls::given;
use crate::wrong_choices::{after, also, before, is_empty, none_drawn, none_won, skips, whatever_the_target};
use calls::simulation::MOST_SIMULATED;
use calls::table::{simulate_refusal, LARGEST_BUDGET, LARGEST_INTERVAL};
use uttt::ffi;

pub const ALL: [(&str, Exports); 63] = [
    ("simulate refuses 1000 games", Exports { simulate: most_refused, ..LIBRARY }),
    ("simulate takes 1001 games", Exports { simulate: one_more, ..LIBRARY }),
    ("simulate takes no game", Exports { simulate: none, ..LIBRARY }),
    ("simulate takes any number of games", Exports { simulate: any_number, ..LIBRARY }),
    ("simulate cuts the number of games to 32 bits", Exports { simulate: number_cut, ..LIBRARY }),
    ("simulate checks the number of games before the record", Exports { simulate: number_before_1, ..LIBRARY }),
    ("simulate checks the number of games before 22", Exports { simulate: number_before_22, ..LIBRARY }),
    ("simulate checks the number of games before the pool", Exports { simulate: number_before_8, ..LIBRARY }),
    ("simulate checks the number of games before the settings", Exports { simulate: number_before_10, ..LIBRARY }),
    ("simulate checks the number of games before the margin", Exports { simulate: number_before_21, ..LIBRARY }),
    ("simulate refuses the number of games with 20", Exports { simulate: number_by_20, ..LIBRARY }),
    ("simulate checks no number of a finished game", Exports { simulate: number_finished, ..LIBRARY }),
    ("simulate checks X's budget alone", Exports { simulate: x_alone, ..LIBRARY }),
    ("simulate checks O's budget alone", Exports { simulate: o_alone, ..LIBRARY }),
    ("simulate checks the mover's budget alone", Exports { simulate: mover_alone, ..LIBRARY }),
    ("simulate refuses only if both budgets are too large", Exports { simulate: both_over, ..LIBRARY }),
    ("simulate checks the sum of the budgets", Exports { simulate: budget_sum, ..LIBRARY }),
    ("simulate cuts X's budget to 32 bits", Exports { simulate: x_cut, ..LIBRARY }),
    ("simulate cuts O's budget to 32 bits", Exports { simulate: o_cut, ..LIBRARY }),
    ("simulate takes a budget of X that is one too large", Exports { simulate: x_one_more, ..LIBRARY }),
    ("simulate takes a budget of O that is one too large", Exports { simulate: o_one_more, ..LIBRARY }),
    ("simulate refuses the largest budget of X", Exports { simulate: x_largest, ..LIBRARY }),
    ("simulate refuses the largest budget of O", Exports { simulate: o_largest, ..LIBRARY }),
    ("simulate does not check the interval", Exports { simulate: any_interval, ..LIBRARY }),
    ("simulate checks the settings before the pool", Exports { simulate: settings_before_8, ..LIBRARY }),
    ("simulate checks no setting of a finished game", Exports { simulate: settings_finished, ..LIBRARY }),
    ("simulate checks the margin before X's budget", Exports { simulate: margin_before_x, ..LIBRARY }),
    ("simulate checks the margin before O's budget", Exports { simulate: margin_before_o, ..LIBRARY }),
    ("simulate checks the margin before the interval", Exports { simulate: margin_before_interval, ..LIBRARY }),
    ("simulate checks the margin before the pool", Exports { simulate: margin_before_8, ..LIBRARY }),
    ("simulate does not check the margin", Exports { simulate: any_margin, ..LIBRARY }),
    ("simulate does not check the margin of a finished game", Exports { simulate: margin_finished, ..LIBRARY }),
    ("simulate checks the margin where staying is off", Exports { simulate: margin_off, ..LIBRARY }),
    ("simulate refuses margin -0", Exports { simulate: minus_zero, ..LIBRARY }),
    ("simulate skips check 22", Exports { simulate: choice_skipped, ..LIBRARY }),
    ("simulate refuses the empty game with 22", Exports { simulate: choice_empty, ..LIBRARY }),
    ("simulate takes a drawn board for one in play in check 22", Exports { simulate: choice_drawn, ..LIBRARY }),
    ("simulate takes a won board for one in play in check 22", Exports { simulate: choice_won, ..LIBRARY }),
    ("simulate refuses any target with 22 if no board is done", Exports { simulate: choice_any, ..LIBRARY }),
    ("simulate makes check 22 before 3", Exports { simulate: choice_before_3, ..LIBRARY }),
    ("simulate makes check 22 after 8", Exports { simulate: choice_after_8, ..LIBRARY }),
    ("simulate makes check 22 after 10", Exports { simulate: choice_after_10, ..LIBRARY }),
    ("simulate makes check 22 after 21", Exports { simulate: choice_after_21, ..LIBRARY }),
    ("simulate makes check 22 after 23", Exports { simulate: choice_after_23, ..LIBRARY }),
    ("simulate counts one game more", Exports { simulate: game_more, ..LIBRARY }),
    ("simulate counts one game less", Exports { simulate: game_less, ..LIBRARY }),
    ("simulate scores a finished game once", Exports { simulate: scored_once, ..LIBRARY }),
    ("simulate scores a drawn finished game as X's", Exports { simulate: drawn_for_x, ..LIBRARY }),
    ("simulate scores a drawn finished game as O's", Exports { simulate: drawn_for_o, ..LIBRARY }),
    ("simulate scores a won finished game as a draw", Exports { simulate: won_for_drawn, ..LIBRARY }),
    ("simulate counts an expansion of a finished game", Exports { simulate: expanded_finished, ..LIBRARY }),
    ("simulate lets the pool's first word in", Exports { simulate: reads_pool, ..LIBRARY }),
    ("simulate gives an index", Exports { simulate: index, ..LIBRARY }),
    ("simulate gives an index with 23", Exports { simulate: index_refused, ..LIBRARY }),
    ("simulate gives a win with a refusal", Exports { simulate: win_refused, ..LIBRARY }),
    ("simulate gives expansions with a refusal", Exports { simulate: expanded_refused, ..LIBRARY }),
    ("simulate writes to a pool with 10", Exports { simulate: writes_10, ..LIBRARY }),
    ("simulate writes to a pool with 23", Exports { simulate: writes_23, ..LIBRARY }),
    ("simulate writes past the capacity", Exports { simulate: writes_over, ..LIBRARY }),
    ("simulate writes to the pool of a finished game", Exports { simulate: writes_finished, ..LIBRARY }),
    ("simulate writes to the record", Exports { simulate: writes_record, ..LIBRARY }),
    ("simulate reads a byte past the record", Exports { simulate: past_record, ..LIBRARY }),
    ("simulate cuts the record's length to 32 bits", Exports { simulate: length_cut, ..LIBRARY }),
];

const WORDS_OF_A_NODE: usize = NODE_BYTES / WORD_BYTES;

impl Asked {
    fn has_no_number(&self) -> bool {
        !(1..=MOST_SIMULATED).contains(&self.games)
    }

    fn has_no_interval(&self) -> bool {
        !(1..=LARGEST_INTERVAL).contains(&self.interval)
    }

    /// Whether X's budget is too large, and O's.
    fn over(&self) -> [bool; 2] {
        self.budgets.map(|budget| budget > LARGEST_BUDGET)
    }

    /// These budgets alone are too large, and the interval is in its range.
    fn is_refused_for(&self, over: [bool; 2]) -> bool {
        self.over() == over && !self.has_no_interval()
    }

    /// The budget of the side that is not to move is alone too large, and the interval is in its range.
    unsafe fn other_is_over(&self) -> bool {
        let o_moves = self.n > 0 && *self.record >> 7 == 1;
        self.is_refused_for(if o_moves { [true, false] } else { [false, true] })
    }
}

/// Simulated players that are refused with this code where none is due, if the condition holds.
macro_rules! simulate_refused {
    ($name:ident, |$lent:ident| $code_if:expr) => {
        simulate!($name, |$lent| match (simulate_refusal(&$lent.simulation()), $code_if) {
            (None, (code, true)) => refused(code),
            _ => $lent.simulate(),
        });
    };
}

/// What cut to 32 bits is in the range of budgets.
fn is_cut(budget: u64) -> bool {
    budget > LARGEST_BUDGET && u64::from(budget as u32) <= LARGEST_BUDGET
}

simulate_refused!(most_refused, |lent| (23, lent.games == MOST_SIMULATED));
simulate_code!(one_more, |lent, code| (code == 23 && lent.games == MOST_SIMULATED + 1).then_some(0));
simulate_code!(none, |lent, code| (code == 23 && lent.games == 0).then_some(0));
simulate_code!(any_number, |_lent, code| (code == 23).then_some(0));
simulate_code!(number_cut, |lent, code| {
    (code == 23 && (1..=MOST_SIMULATED).contains(&u64::from(lent.games as u32))).then_some(0)
});
simulate_code!(number_before_1, |lent, code| (code == 1 && lent.has_no_number()).then_some(23));
simulate_code!(number_before_22, |lent, code| (code == 22 && lent.has_no_number()).then_some(23));
simulate_code!(number_before_8, |lent, code| (code == 8 && lent.has_no_number()).then_some(23));
simulate_code!(number_before_10, |lent, code| (code == 10 && lent.has_no_number()).then_some(23));
simulate_code!(number_before_21, |lent, code| (code == 21 && lent.has_no_number()).then_some(23));
simulate_code!(number_by_20, |_lent, code| (code == 23).then_some(20));
simulate_code!(number_finished, |lent, code| (code == 23 && lent.is_finished()).then_some(0));

simulate_code!(x_alone, |lent, code| (code == 10 && lent.is_refused_for([false, true])).then_some(0));
simulate_code!(o_alone, |lent, code| (code == 10 && lent.is_refused_for([true, false])).then_some(0));
simulate_code!(mover_alone, |lent, code| (code == 10 && lent.other_is_over()).then_some(0));
simulate_code!(both_over, |lent, code| {
    (code == 10 && !lent.has_no_interval() && lent.over() != [true; 2]).then_some(0)
});
simulate_refused!(budget_sum, |lent| (10, lent.budgets[0].saturating_add(lent.budgets[1]) > LARGEST_BUDGET));
simulate_code!(x_cut, |lent, code| {
    (code == 10 && lent.is_refused_for([true, false]) && is_cut(lent.budgets[0])).then_some(0)
});
simulate_code!(o_cut, |lent, code| {
    (code == 10 && lent.is_refused_for([false, true]) && is_cut(lent.budgets[1])).then_some(0)
});
simulate_code!(x_one_more, |lent, code| {
    (code == 10 && lent.is_refused_for([true, false]) && lent.budgets[0] == LARGEST_BUDGET + 1).then_some(0)
});
simulate_code!(o_one_more, |lent, code| {
    (code == 10 && lent.is_refused_for([false, true]) && lent.budgets[1] == LARGEST_BUDGET + 1).then_some(0)
});
simulate_refused!(x_largest, |lent| (10, lent.budgets[0] == LARGEST_BUDGET));
simulate_refused!(o_largest, |lent| (10, lent.budgets[1] == LARGEST_BUDGET));
simulate_code!(any_interval, |lent, code| (code == 10 && lent.over() == [false; 2]).then_some(0));
simulate_code!(settings_before_8, |lent, code| (code == 8 && lent.over() != [false; 2]).then_some(10));
simulate_code!(settings_finished, |lent, code| (code == 10 && lent.is_finished()).then_some(0));

simulate_code!(margin_before_x, |lent, code| {
    (code == 10 && lent.is_refused_for([true, false]) && lent.is_bad()).then_some(21)
});
simulate_code!(margin_before_o, |lent, code| {
    (code == 10 && lent.is_refused_for([false, true]) && lent.is_bad()).then_some(21)
});
simulate_code!(margin_before_interval, |lent, code| {
    (code == 10 && lent.has_no_interval() && lent.is_bad()).then_some(21)
});
simulate_code!(margin_before_8, |lent, code| (code == 8 && lent.is_bad()).then_some(21));
simulate_code!(any_margin, |_lent, code| (code == 21).then_some(0));
simulate_code!(margin_finished, |lent, code| (code == 21 && lent.is_finished()).then_some(0));
simulate_refused!(margin_off, |lent| (21, !lent.staying && given(true, lent.margin).is_refused()));
simulate_refused!(minus_zero, |lent| (21, lent.staying && lent.margin.to_bits() == 1 << 63));

simulate!(choice_skipped, |lent| skips(lent));
simulate!(choice_empty, |lent| also(lent, is_empty));
simulate!(choice_drawn, |lent| also(lent, none_won));
simulate!(choice_won, |lent| also(lent, none_drawn));
simulate!(choice_any, |lent| also(lent, whatever_the_target));
simulate!(choice_before_3, |lent| before(lent, 3));
simulate!(choice_after_8, |lent| after(lent, 8));
simulate!(choice_after_10, |lent| after(lent, 10));
simulate!(choice_after_21, |lent| after(lent, 21));
simulate!(choice_after_23, |lent| after(lent, 23));

simulate_then!(game_more, |_lent, a| a.draws += u64::from(a.code == 0));
simulate_then!(game_less, |_lent, a| a.x_wins -= u64::from(a.x_wins > 0));
simulate_then!(scored_once, |lent, a| if lent.is_finished() {
    (a.x_wins, a.o_wins, a.draws) = (a.x_wins.min(1), a.o_wins.min(1), a.draws.min(1));
});
simulate_then!(drawn_for_x, |lent, a| if lent.is_finished() && a.draws > 0 {
    (a.x_wins, a.draws) = (a.draws, 0);
});
simulate_then!(drawn_for_o, |lent, a| if lent.is_finished() && a.draws > 0 {
    (a.o_wins, a.draws) = (a.draws, 0);
});
simulate_then!(won_for_drawn, |lent, a| if a.code == 0 && lent.is_finished() {
    (a.x_wins, a.o_wins, a.draws) = (0, 0, lent.games);
});
simulate_then!(expanded_finished, |lent, a| a.expanded += u64::from(a.code == 0 && lent.is_finished()));
simulate!(reads_pool, |lent| {
    let seen = if lent.k > 0 { *lent.words % 2 } else { 0 };
    let a = lent.simulate();
    ffi::SimulateAnswer { expanded: a.expanded + u64::from(a.code == 0) * u64::from(seen), ..a }
});
simulate_then!(index, |lent, a| a.index = if a.code == 0 { lent.games } else { 0 });
simulate_then!(index_refused, |_lent, a| a.index += u64::from(a.code == 23));
simulate_then!(win_refused, |_lent, a| a.x_wins += u64::from(a.code == 23));
simulate_then!(expanded_refused, |_lent, a| a.expanded += u64::from(a.code == 8));

simulate_then!(writes_10, |lent, a| if a.code == 10 {
    *lent.words ^= 1;
});
simulate_then!(writes_23, |lent, a| if a.code == 23 {
    *lent.words ^= 1;
});
simulate_then!(writes_over, |lent, a| if a.code == 0 && WORDS_OF_A_NODE * (nodes(lent.k) as usize) < lent.k {
    *lent.words.add(lent.k - 1) ^= 1;
});
simulate_then!(writes_finished, |lent, a| if a.code == 0 && lent.is_finished() {
    *lent.words ^= 1;
});
simulate_then!(writes_record, |lent, _a| if lent.n > 0 {
    lent.record.cast_mut().write_volatile(*lent.record);
});
simulate_then!(past_record, |lent, _a| lent.record.wrapping_add(lent.n).read_volatile());
simulate!(length_cut, |lent| Asked { n: lent.n as u32 as usize, ..lent }.simulate());
