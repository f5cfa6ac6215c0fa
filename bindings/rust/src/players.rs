//! Simulated players.

use crate::{ffi, Pool, Refusal, Settings, Stay};

/// What bounds the searches of two players beside their pool, and how they go. By default each player has the budget
/// that [`Settings`] has.
#[derive(Clone, Copy, Debug, PartialEq)]
pub struct PlayersSettings {
    /// The most live nodes of a search, looked at on every interval-th expansion.
    pub limit: u64,
    /// The most expansions of each search that X makes, 0 to [`BUDGET_MOST`](crate::BUDGET_MOST).
    pub x_budget: u64,
    /// Likewise O.
    pub o_budget: u64,
    /// 1 to 1,000,000.
    pub interval: u64,
    /// Whether each search stays on a line.
    pub stay: Stay,
}

impl Default for PlayersSettings {
    fn default() -> PlayersSettings {
        let Settings { limit, budget, interval, stay } = Settings::default();
        PlayersSettings { limit, x_budget: budget, o_budget: budget, interval, stay }
    }
}

/// How the games of a simulation ended, and what they took.
#[derive(Clone, Copy, Debug, PartialEq, Eq, Hash)]
pub struct Report {
    /// Games that X won.
    pub x_wins: u64,
    /// Games that O won.
    pub o_wins: u64,
    /// Drawn games. The three sum to the number of games.
    pub draws: u64,
    /// Expansions of all searches of all games together.
    pub expanded: u64,
}

/// Has two players, X and O, play so many games from the record's position, 1 to
/// [`SIMULATED_MOST`](crate::SIMULATED_MOST), and counts who won.
///
/// At a turn the player searches the position after each legal move, in move order, under rule 2 and with its own
/// budget. The first move whose search answers False is played, and no later one is searched: the other side can't
/// force even a draw after it, so the player can force a win. If no search answers False, the player draws a move; how
/// it does so from the seed, include/ultimattt.h says. A finished game is scored as it is, each time, and nothing is
/// searched.
///
/// The same record, seed, number of games, settings and pool in nodes give the same report, whatever the pool held. To
/// see other games take seeds at least 2^32 apart: those near each other draw the same moves nearly always.
///
/// A call can't be interrupted: many games with large budgets can take long.
///
/// ```
/// use ultimattt::{simulate, PlayersSettings, Pool, Report};
///
/// // X to move wins at once: the search after its first move is solved on sight, without an expansion.
/// let mut record = [0; 21];
/// record[..11].copy_from_slice(&[0x12, 0xA0, 0x00, 0xA8, 0x00, 0x28, 0x05, 0x15, 0x00, 0x05, 0x40]);
/// let settings = PlayersSettings { x_budget: 50, o_budget: 5, ..PlayersSettings::default() };
/// let report = simulate(&record, &mut Pool::default(), 7, 100, &settings)?;
/// assert_eq!(report, Report { x_wins: 100, o_wins: 0, draws: 0, expanded: 0 });
/// # Ok::<(), ultimattt::Refusal>(())
/// ```
pub fn simulate(record: &[u8], pool: &mut Pool, seed: u64, games: u64, s: &PlayersSettings) -> Result<Report, Refusal> {
    let (words, (staying, margin)) = (pool.words_mut(), s.stay.passed());
    // SAFETY: both slices are valid for their lengths, and a &mut overlaps nothing.
    let answer = unsafe {
        ffi::uttt_simulate(
            record.as_ptr(),
            record.len(),
            words.as_mut_ptr(),
            words.len(),
            seed,
            games,
            s.limit,
            s.x_budget,
            s.o_budget,
            s.interval,
            staying,
            margin,
        )
    };
    Refusal::check(answer.code, answer.index)?;
    Ok(Report { x_wins: answer.x_wins, o_wins: answer.o_wins, draws: answer.draws, expanded: answer.expanded })
}
