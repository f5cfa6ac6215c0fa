//! Two players, told with the library's moves, replays and searches.

use super::{budget, d, pool, record, x_to_move, FREE_CHOICE, O, X};
use ultimattt::{legal_moves, replay, search, PlayersSettings, Record, Report, Rule, Settings, Verdict};

pub fn report(x_wins: u64, o_wins: u64, draws: u64, expanded: u64) -> Report {
    Report { x_wins, o_wins, draws, expanded }
}

/// What is added to the state for a draw.
pub const STEP: u64 = 0x9E37_79B9_7F4A_7C15;

/// The nodes and settings of all searches, the state of the draws, and the expansions so far.
pub struct Players {
    pub nodes: usize,
    pub settings: PlayersSettings,
    pub state: u64,
    pub expanded: u64,
}

impl Players {
    pub fn new(nodes: usize, seed: u64, settings: &PlayersSettings) -> Players {
        Players { nodes, settings: *settings, state: seed, expanded: 0 }
    }

    /// Whether the search of a position with a budget answers False.
    fn is_false(&mut self, record: &Record, budget: u64) -> bool {
        let PlayersSettings { limit, interval, stay, .. } = self.settings;
        let settings = Settings { limit, budget, interval, stay };
        let result = search(record, &mut pool(self.nodes), Rule::DrawTrue, &settings).expect("an accepted search");
        self.expanded += result.expanded;
        result.verdict == Verdict::False
    }

    /// The record after a turn; none if the game is over.
    pub fn turn(&mut self, record: &Record) -> Option<Record> {
        let moves = legal_moves(record).expect("an accepted record");
        let after = |place: usize| replay(record, &moves[place..=place]).expect("a legal move");
        if moves.is_empty() {
            return None;
        }
        let budget = if record[0] >> 7 == 0 { self.settings.x_budget } else { self.settings.o_budget };
        let found = (0..moves.len()).map(after).find(|record| self.is_false(record, budget));
        found.or_else(|| {
            self.state = self.state.wrapping_add(STEP);
            Some(after((self.state >> 32) as usize % moves.len()))
        })
    }

    /// The record at the end of a game.
    pub fn game(&mut self, record: &Record) -> Record {
        let mut last = *record;
        while let Some(next) = self.turn(&last) {
            last = next;
        }
        last
    }

    /// The report of so many games.
    pub fn games(&mut self, record: &Record, games: u64) -> Report {
        let mut counts = [0; 3];
        for _ in 0..games {
            counts[outcome(&self.game(record))] += 1;
        }
        report(counts[0], counts[1], counts[2], self.expanded)
    }
}

/// 0 if X won a finished game, 1 if O did, 2 if it is drawn. Who is to move has not won.
fn outcome(last: &Record) -> usize {
    let drawn = search(last, &mut pool(1), Rule::DrawTrue, &budget(0)).expect("an accepted search").verdict;
    match (drawn, last[0] >> 7) {
        (Verdict::True, _) => 2,
        (_, 1) => 0,
        _ => 1,
    }
}

/// Finished games with the report of one game: X won, O won, drawn with X to move and with O to move.
pub fn finished() -> [(Record, Report); 4] {
    let of_o: (&[usize], &[usize], u8) = (&[0, 1, 2], &[0, 1, 2], O);
    [
        (record("FAA000A8002A001500054001400000000000000000"), report(1, 0, 0, 0)),
        (x_to_move(FREE_CHOICE, &[of_o, (&[3, 4, 5], &[0, 1, 3], X)]), report(0, 1, 0, 0)),
        (d(FREE_CHOICE), report(0, 0, 1, 0)),
        (record("FAB400A80054001500054000A8002A000A80054000"), report(0, 0, 1, 0)),
    ]
}

/// W2: as W, but of X's five moves only the last wins at once.
pub fn w2() -> Record {
    record("12A000A80050029500054000000000000000000000")
}

/// K3: X has one move, O has one reply, then the game is drawn.
pub fn k3() -> Record {
    record("1B2D4A20CB2A8A034CCC043492152D2352B4C84514")
}

/// K2: O to move, three moves, each of which ends the game in a draw.
pub fn k2() -> Record {
    record("FA20D3128520354022ACCB5220554AB52A910CD2B4")
}

/// B: an ending, O to move.
pub fn b() -> Record {
    record("C5132000152A001288C2D0B315404CD3228A92D0C8")
}
