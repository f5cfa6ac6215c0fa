//! Libraries with one thing wrong in how simulated players play, as `wrong` has them: the games by lone searches with
//! one thing done otherwise.

use crate::exports::{Exports, LIBRARY};
use crate::player_calls::{reported, simulate, simulate_then, Asked};
use crate::players::{Players, AS_DUE, FALSE, STEP};
use calls::Report;
use uttt::ffi;

pub const ALL: [(&str, Exports); 37] = [
    ("simulate gives X's budget to O and O's to X", Exports { simulate: turned_round, ..LIBRARY }),
    ("simulate gives X's budget to both", Exports { simulate: x_for_both, ..LIBRARY }),
    ("simulate gives O's budget to both", Exports { simulate: o_for_both, ..LIBRARY }),
    ("simulate gives both the larger budget", Exports { simulate: larger, ..LIBRARY }),
    ("simulate searches under rule 0", Exports { simulate: rule_0, ..LIBRARY }),
    ("simulate searches under rule 1", Exports { simulate: rule_1, ..LIBRARY }),
    ("simulate plays a move on Unknown", Exports { simulate: on_unknown, ..LIBRARY }),
    ("simulate plays a move on True", Exports { simulate: on_true, ..LIBRARY }),
    ("simulate never plays on a False", Exports { simulate: by_lot, ..LIBRARY }),
    ("simulate plays the last False", Exports { simulate: last_false, ..LIBRARY }),
    ("simulate searches on after a False", Exports { simulate: to_the_last, ..LIBRARY }),
    ("simulate does not search a lone move", Exports { simulate: lone_move, ..LIBRARY }),
    ("simulate does not search a move that ends the game", Exports { simulate: ending_move, ..LIBRARY }),
    ("simulate does not count the search of the played move", Exports { simulate: uncounted_false, ..LIBRARY }),
    ("simulate counts the search of the played move alone", Exports { simulate: counted_false, ..LIBRARY }),
    ("simulate counts nodes made", Exports { simulate: nodes_made, ..LIBRARY }),
    ("simulate moves the state at every turn", Exports { simulate: at_every_turn, ..LIBRARY }),
    ("simulate never moves the state", Exports { simulate: state_stays, ..LIBRARY }),
    ("simulate does not pass 2^64", Exports { simulate: saturated, ..LIBRARY }),
    ("simulate keeps 63 bits of the state", Exports { simulate: short_state, ..LIBRARY }),
    ("simulate adds the step twice", Exports { simulate: step_twice, ..LIBRARY }),
    ("simulate draws by the state before the step", Exports { simulate: state_before, ..LIBRARY }),
    ("simulate draws by the lower half of the state", Exports { simulate: lower_half, ..LIBRARY }),
    ("simulate draws by the whole state", Exports { simulate: whole_state, ..LIBRARY }),
    ("simulate draws by the upper 31 bits", Exports { simulate: upper_31, ..LIBRARY }),
    ("simulate draws by the upper 33 bits", Exports { simulate: upper_33, ..LIBRARY }),
    ("simulate draws by the upper half scaled down", Exports { simulate: scaled, ..LIBRARY }),
    ("simulate counts drawn places from the end", Exports { simulate: from_the_end, ..LIBRARY }),
    ("simulate begins each game with the seed", Exports { simulate: seed_again, ..LIBRARY }),
    ("simulate moves the state between games", Exports { simulate: between_games, ..LIBRARY }),
    ("simulate cuts the seed to 32 bits", Exports { simulate: seed_cut, ..LIBRARY }),
    ("simulate does not look at the limit", Exports { simulate: no_limit, ..LIBRARY }),
    ("simulate looks at the limit after each expansion", Exports { simulate: each_expansion, ..LIBRARY }),
    ("simulate does not stay on a line", Exports { simulate: never_stays, ..LIBRARY }),
    ("simulate leaves a node of the pool out", Exports { simulate: one_node_less, ..LIBRARY }),
    ("simulate gives X's wins for O's", Exports { simulate: wins_turned, ..LIBRARY }),
    ("simulate plays one game as often as there are games", Exports { simulate: one_game, ..LIBRARY }),
];

simulate!(turned_round, |lent| lent
    .simulate_by(Players { budget: |[x, o], x_moves| if x_moves { o } else { x }, ..AS_DUE }));
simulate!(x_for_both, |lent| lent.simulate_by(Players { budget: |[x, _], _| x, ..AS_DUE }));
simulate!(o_for_both, |lent| lent.simulate_by(Players { budget: |[_, o], _| o, ..AS_DUE }));
simulate!(larger, |lent| lent.simulate_by(Players { budget: |[x, o], _| x.max(o), ..AS_DUE }));
simulate!(rule_0, |lent| lent.simulate_by(Players { rule: 0, ..AS_DUE }));
simulate!(rule_1, |lent| lent.simulate_by(Players { rule: 1, ..AS_DUE }));
simulate!(on_unknown, |lent| lent.simulate_by(Players { plays: |result| result.verdict != 1, ..AS_DUE }));
simulate!(on_true, |lent| lent.simulate_by(Players { plays: |result| result.verdict == 1, ..AS_DUE }));
simulate!(by_lot, |lent| lent.simulate_by(Players { plays: |_| false, ..AS_DUE }));
simulate!(last_false, |lent| lent.simulate_by(Players { backwards: true, ..AS_DUE }));
simulate!(to_the_last, |lent| lent.simulate_by(Players { to_the_last: true, ..AS_DUE }));
simulate!(lone_move, |lent| lent.simulate_by(Players { searches: |moves, _| moves > 1, ..AS_DUE }));
simulate!(ending_move, |lent| lent.simulate_by(Players { searches: |_, next| !next.game_over(), ..AS_DUE }));
simulate!(uncounted_false, |lent| {
    lent.simulate_by(Players { counted: |result| if result.verdict == FALSE { 0 } else { result.expanded }, ..AS_DUE })
});
simulate!(counted_false, |lent| {
    lent.simulate_by(Players { counted: |result| if result.verdict == FALSE { result.expanded } else { 0 }, ..AS_DUE })
});
simulate!(nodes_made, |lent| lent.simulate_by(Players { counted: |result| result.allocated - 1, ..AS_DUE }));

simulate!(at_every_turn, |lent| lent.simulate_by(Players { at_every_turn: true, ..AS_DUE }));
simulate!(state_stays, |lent| lent.simulate_by(drawing(|state| state)));
simulate!(saturated, |lent| lent.simulate_by(drawing(|state| state.saturating_add(STEP))));
simulate!(short_state, |lent| lent.simulate_by(drawing(|state| state.wrapping_add(STEP) % (1 << 63))));
simulate!(step_twice, |lent| lent.simulate_by(drawing(|state| state.wrapping_add(STEP).wrapping_add(STEP))));
simulate!(state_before, |lent| lent.simulate_by(placing(|before, _, moves| (before >> 32) % moves)));
simulate!(lower_half, |lent| lent.simulate_by(placing(|_, state, moves| state % (1 << 32) % moves)));
simulate!(whole_state, |lent| lent.simulate_by(placing(|_, state, moves| state % moves)));
simulate!(upper_31, |lent| lent.simulate_by(placing(|_, state, moves| (state >> 33) % moves)));
simulate!(upper_33, |lent| lent.simulate_by(placing(|_, state, moves| (state >> 31) % moves)));
simulate!(scaled, |lent| lent.simulate_by(placing(|_, state, moves| ((state >> 32) * moves) >> 32)));
simulate!(from_the_end, |lent| lent.simulate_by(placing(|_, state, moves| moves - 1 - (state >> 32) % moves)));
simulate!(seed_again, |lent| lent.simulate_by(Players { next: |seed, _| seed, ..AS_DUE }));
simulate!(between_games, |lent| lent.simulate_by(Players { next: |_, state| state.wrapping_add(STEP), ..AS_DUE }));
simulate!(seed_cut, |lent| Asked { seed: lent.seed % (1 << 32), ..lent }.simulate());

simulate!(no_limit, |lent| lent.simulate_in(Asked { limit: u64::MAX, ..lent }, AS_DUE));
simulate!(each_expansion, |lent| lent.simulate_in(Asked { interval: 1, ..lent }, AS_DUE));
simulate!(never_stays, |lent| lent.simulate_in(Asked { staying: false, ..lent }, AS_DUE));
simulate!(one_node_less, |lent| match lent.k {
    10.. => lent.simulate_in(Asked { k: lent.k - 5, ..lent }, AS_DUE),
    _ => lent.simulate(),
});
simulate_then!(wins_turned, |_lent, a| (a.x_wins, a.o_wins) = (a.o_wins, a.x_wins));
simulate!(one_game, |lent| match lent.simulate() {
    ffi::SimulateAnswer { code: 0, .. } => {
        let one = Asked { games: 1, ..lent }.simulate();
        let [x_wins, o_wins, draws, expanded] =
            [one.x_wins, one.o_wins, one.draws, one.expanded].map(|n| n * lent.games);
        reported(Report { x_wins, o_wins, draws, expanded })
    }
    a => a,
});

/// The players with another step of the state.
fn drawing(step: fn(u64) -> u64) -> Players {
    Players { step, ..AS_DUE }
}

/// The players with another place of a drawn move.
fn placing(place: fn(u64, u64, u64) -> u64) -> Players {
    Players { place, ..AS_DUE }
}
