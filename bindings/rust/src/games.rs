//! Several games judged together.

use crate::{ffi, Pool, Refusal, Rule, SearchResult, Settings, Stay, GAMES_MOST, RECORD_BYTES};

/// What bounds the searches of several games beside their pool, and how they go. By default each of eight games has as
/// its share what [`Settings`] has as budget, and the allowance is all of these together.
#[derive(Clone, Copy, Debug, PartialEq)]
pub struct GamesSettings {
    /// The most live nodes of a game, looked at on every interval-th expansion of that game.
    pub limit: u64,
    /// The most expansions of all games together, 0 to [`BUDGET_MOST`](crate::BUDGET_MOST).
    pub allowance: u64,
    /// 1 to 1,000,000.
    pub interval: u64,
    /// For each game, the most expansions of the first pass, 0 to [`BUDGET_MOST`](crate::BUDGET_MOST); their sum is at
    /// most the allowance. Those past the last game are not read: any number may stand there.
    pub shares: [u64; GAMES_MOST],
    /// Whether each game's search stays on a line.
    pub stay: Stay,
}

impl Default for GamesSettings {
    fn default() -> GamesSettings {
        let Settings { limit, budget, interval, stay } = Settings::default();
        GamesSettings { limit, allowance: GAMES_MOST as u64 * budget, interval, shares: [budget; GAMES_MOST], stay }
    }
}

/// Judges one to eight games together under a rule, with one allowance of expansions; their records stand one after the
/// other. Gives a result for each game, in their order.
///
/// The pool is cut into equal parts of whole nodes, one for each game. In a first pass each game is searched up to its
/// share. In a second, in the same order, each game that its share stopped goes on, with all of the allowance that is
/// unspent when its turn comes. A result is that of [`search`](crate::search) in a pool of a part's size, with what the
/// game was granted as budget: its share or, if it went on, its share and what was unspent then.
///
/// ```
/// use ultimattt::{judge_games, replay, GamesSettings, Pool, Refusal, Rule, EMPTY_GAME};
///
/// let games = [EMPTY_GAME, replay(&EMPTY_GAME, &[0x44])?];
/// let settings = GamesSettings { allowance: 100, shares: [10; 8], ..GamesSettings::default() };
/// let mut pool = Pool::new(6_000)?;
/// let results = judge_games(&games.concat(), &mut pool, Rule::DrawFalse, &settings)?;
/// // Both were stopped after 10. The first went on with the other 80 and left none.
/// assert_eq!([results[0].expanded, results[1].expanded], [90, 10]);
///
/// let games = [EMPTY_GAME, [0; 21], [0xFF; 21]];
/// let refusal = judge_games(&games.concat(), &mut pool, Rule::DrawFalse, &settings).unwrap_err();
/// assert_eq!(refusal, Refusal::InGame(2, &Refusal::RecordBits));
/// # Ok::<(), ultimattt::Refusal>(())
/// ```
pub fn judge_games(
    records: &[u8],
    pool: &mut Pool,
    rule: Rule,
    s: &GamesSettings,
) -> Result<Vec<SearchResult>, Refusal> {
    let (words, (staying, margin)) = (pool.words_mut(), s.stay.passed());
    // SAFETY: the slices and the eight shares are valid for their lengths, and a &mut overlaps nothing.
    let answer = unsafe {
        ffi::uttt_judge_games(
            records.as_ptr(),
            records.len(),
            words.as_mut_ptr(),
            words.len(),
            &s.shares,
            rule.number(),
            s.limit,
            s.allowance,
            s.interval,
            staying,
            margin,
        )
    };
    Refusal::check_games(answer.code, answer.index, records.len() / RECORD_BYTES)?;
    Ok(answer.results[..answer.count as usize].iter().map(|fields| SearchResult::from(*fields)).collect())
}
