//! Simulated players. The original has no such call, so a turn, the draw and the games are written here a second time,
//! plainly and apart from the proved code, over the original's moves and, for the oracle's answer, its searches.

use crate::answer::search;
use crate::game::{Game, GameState, Player};
use crate::load;
use calls::line::Verdict;
use calls::record::LENGTH;
use calls::table::simulate_refusal;
use calls::{Answer, Fields, Report, Simulation};

/// The rule of every search.
pub const RULE: u64 = 2;
/// What a draw adds to the state.
const STEP: u64 = 0x9E37_79B9_7F4A_7C15;

pub fn answer(call: &Simulation) -> Answer {
    match simulate_refusal(call) {
        Some(number) => Answer::refused(number),
        None => Answer::Simulated(played(call).report),
    }
}

/// The report of a call, and how many positions were searched.
#[derive(Clone, Copy, Debug, Default, PartialEq, Eq)]
pub struct Played {
    pub report: Report,
    pub searches: u64,
}

/// The games of a call that no check refuses, by the original's searches.
pub fn played(call: &Simulation) -> Played {
    let Simulation { pool, limit, interval, stay, .. } = *call;
    played_by(call, |record, budget| search(record, RULE, pool, limit, budget, interval, stay))
}

/// The same by another search of a record with a budget.
pub fn played_by(call: &Simulation, search: impl FnMut(&[u8; LENGTH], u64) -> Fields) -> Played {
    let start = load::game(call.record.as_slice().try_into().expect("check 1 passed"));
    let mut players = Players { budgets: call.budgets, state: call.seed, search, played: Played::default() };
    for _ in 0..call.games {
        let end = players.game(start.clone());
        let report = &mut players.played.report;
        *match end {
            GameState::Won(Player::X) => &mut report.x_wins,
            GameState::Won(Player::O) => &mut report.o_wins,
            GameState::Drawn => &mut report.draws,
            GameState::InPlay => unreachable!("a game is played to its end"),
        } += 1;
    }
    players.played
}

/// Both of them, and what has been played so far.
struct Players<S> {
    budgets: [u64; 2],
    /// Of the draw: it goes on from game to game.
    state: u64,
    search: S,
    played: Played,
}

impl<S: FnMut(&[u8; LENGTH], u64) -> Fields> Players<S> {
    /// Plays on to the end of the game.
    fn game(&mut self, mut game: Game) -> GameState {
        while !game.game_over() {
            game = self.turn(&game);
        }
        game.game_state()
    }

    /// The position after the first move that is searched as lost by the other side, else after one that is drawn.
    fn turn(&mut self, game: &Game) -> Game {
        let budget = match game.player() {
            Player::X => self.budgets[0],
            Player::O => self.budgets[1],
        };
        let moves = game.all_moves().map(|m| game.make_move(m).expect("a listed move is legal"));
        let mut after: Vec<Game> = moves.collect();
        let lost = after.iter().position(|next| self.is_lost(next, budget));
        let place = lost.unwrap_or_else(|| self.draw(after.len()));
        after.swap_remove(place)
    }

    /// Whether the search says False of the side that is to move then.
    fn is_lost(&mut self, next: &Game, budget: u64) -> bool {
        let fields = (self.search)(&load::record(next), budget);
        self.played.searches += 1;
        self.played.report.expanded += fields.expanded;
        fields.verdict == Verdict::False
    }

    /// One of so many places, by the upper half of the state's bits.
    fn draw(&mut self, places: usize) -> usize {
        self.state = self.state.wrapping_add(STEP);
        (self.state >> 32) as usize % places
    }
}
