//! Simulated players between guard pages, and the players by lone searches: as they are due, or with one thing done
//! otherwise. The report must be the one that the library's own searches give. That these are right is the comparison's
//! to see.

use crate::checks::must;
use crate::filling::Filling;
use crate::guarded::Edge;
use crate::run::{Answered, Lender, NODE_BYTES, WORD_BYTES};
use crate::watch;
use calls::record::LENGTH;
use calls::table::simulate_refusal;
use calls::{Call, Report, Simulation};
use oracle::game::{Game, GameState, Player};
use oracle::generate::Random;
use oracle::load;
use uttt::ffi::ResultFields;

/// The number of the verdict False.
pub const FALSE: u32 = 2;
/// What a draw adds to the state.
pub const STEP: u64 = 0x9E37_79B9_7F4A_7C15;

/// How the games are played.
#[derive(Clone, Copy)]
pub struct Players {
    /// The budget of a search, by those of X and O and by whether X moves.
    pub budget: fn([u64; 2], bool) -> u64,
    pub rule: u64,
    /// Whether a move is searched, by the number of legal moves and the position after it.
    pub searches: fn(usize, &Game) -> bool,
    /// Whether a move with this result is played.
    pub plays: fn(&ResultFields) -> bool,
    /// Whether moves are searched from the last one on.
    pub backwards: bool,
    /// Whether all moves are searched, also after one that is played.
    pub to_the_last: bool,
    /// The expansions of a search that count.
    pub counted: fn(&ResultFields) -> u64,
    /// The state after a draw, by the one before it.
    pub step: fn(u64) -> u64,
    /// Whether the state moves at a turn without a draw, too.
    pub at_every_turn: bool,
    /// The place of a drawn move by the states before and after, and the number of legal moves.
    pub place: fn(u64, u64, u64) -> u64,
    /// The state with which the next game begins, by the seed and the one at the end of the last.
    pub next: fn(u64, u64) -> u64,
}

pub const AS_DUE: Players = Players {
    budget: |[x, o], x_moves| if x_moves { x } else { o },
    rule: 2,
    searches: |_, _| true,
    plays: |result| result.verdict == FALSE,
    backwards: false,
    to_the_last: false,
    counted: |result| result.expanded,
    step: |state| state.wrapping_add(STEP),
    at_every_turn: false,
    place: |_, state, moves| (state >> 32) % moves,
    next: |_, state| state,
};

impl Players {
    /// The report; `search` is of a record, under a rule and with a budget.
    pub fn report(&self, call: &Simulation, mut search: impl FnMut(&[u8; LENGTH], u64, u64) -> ResultFields) -> Report {
        let start = load::game(call.record.as_slice().try_into().expect("an accepted record has 21 bytes"));
        let (mut state, mut report) = (call.seed, Report::default());
        for _ in 0..call.games {
            let mut game = start.clone();
            while !game.game_over() {
                let budget = (self.budget)(call.budgets, game.player() == Player::X);
                game = self.turn(&game, &mut state, |next| {
                    let result = search(&load::record(next), self.rule, budget);
                    report.expanded += (self.counted)(&result);
                    (self.plays)(&result)
                });
            }
            match game.game_state() {
                GameState::Won(Player::X) => report.x_wins += 1,
                GameState::Won(Player::O) => report.o_wins += 1,
                _ => report.draws += 1,
            }
            state = (self.next)(call.seed, state);
        }
        report
    }

    /// The position after the move that is played or drawn.
    fn turn(&self, game: &Game, state: &mut u64, mut is_played: impl FnMut(&Game) -> bool) -> Game {
        let moves = game.all_moves().map(|m| game.make_move(m).expect("a listed move is legal"));
        let mut after: Vec<Game> = moves.collect();
        let mut places: Vec<usize> = (0..after.len()).filter(|at| (self.searches)(after.len(), &after[*at])).collect();
        if self.backwards {
            places.reverse();
        }
        let mut played = None;
        for place in places {
            if (played.is_none() || self.to_the_last) && is_played(&after[place]) {
                played = played.or(Some(place));
            }
        }
        let before = *state;
        if played.is_none() || self.at_every_turn {
            *state = (self.step)(before);
        }
        let place = played.unwrap_or_else(|| (self.place)(before, *state, after.len() as u64) as usize);
        after.swap_remove(place)
    }
}

impl Lender {
    /// The call, then the same games by lone searches. The pool's words are open where there is something to search.
    pub fn simulate(
        &mut self,
        call: &Call,
        simulation: &Simulation,
        line: &str,
        edge: Edge,
        random: &mut Random,
    ) -> Result<Answered, String> {
        let (pool, finished) = (simulation.pool, simulation.is_finished());
        let answered = self.search(call, pool, if finished { 0 } else { pool }, line, edge, random)?;
        if simulate_refusal(simulation).is_none() && answered.code == 0 {
            self.pool.lend(NODE_BYTES * pool as usize, edge, Filling::any(random));
            let Report { x_wins, o_wins, draws, expanded } = self.played(simulation, line);
            let due = [x_wins, o_wins, draws, expanded];
            if answered.numbers != due {
                return Err(format!("the report is {:?}, and by lone searches {:?}", answered.numbers, due));
            }
        }
        Ok(answered)
    }

    /// The report by lone searches over the pool that is lent.
    fn played(&mut self, call: &Simulation, line: &str) -> Report {
        let export = self.exports.search;
        let (words, length) = (self.pool.pointer() as *mut u32, self.pool.bytes().len() / WORD_BYTES);
        let Simulation { limit, interval, stay, .. } = *call;
        let (on, margin) = stay.passed(f64::NAN);
        // SAFETY: pointers and lengths belong together, and the buffers are apart.
        let lone = |record: &[u8; LENGTH], rule, budget| unsafe {
            export(record.as_ptr(), LENGTH, words, length, rule, limit, budget, interval, on, margin).result
        };
        watch::during(line, self.seconds, || AS_DUE.report(call, lone))
    }
}

/// Every game is counted once, and a finished one takes no expansion.
pub fn result(call: &Simulation, a: &Answered) -> Result<(), String> {
    let [x_wins, o_wins, draws, expanded] = a.numbers[..] else {
        return Err(format!("{} numbers", a.numbers.len()));
    };
    let counted = [x_wins, o_wins, draws].into_iter().try_fold(0u64, u64::checked_add);
    must(counted == Some(call.games), "wins and draws add up to the games")?;
    must(expanded == 0 || !call.is_finished(), "a finished game takes no expansion")
}
