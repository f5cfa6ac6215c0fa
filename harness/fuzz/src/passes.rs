//! The two passes of games judged together, by lone searches: as they are due, or with one thing done otherwise.

use uttt::ffi::ResultFields;

/// How the passes are done.
#[derive(Clone, Copy)]
pub struct Passes {
    /// What is unspent after the first, by the allowance, the shares and the results.
    pub unspent: fn(u64, &[u64], &[ResultFields]) -> u64,
    /// Whether a game with this cause goes on.
    pub goes_on: fn(u32) -> bool,
    /// What such a game is granted, by its share and what is unspent.
    pub granted: fn(u64, u64) -> u64,
    /// What is unspent after it, by what was, what the game was granted and its expansions.
    pub left: fn(u64, u64, u64) -> u64,
    /// Whether the last game goes on first.
    pub backwards: bool,
}

pub const AS_DUE: Passes = Passes {
    unspent: |allowance, _, results| allowance.saturating_sub(results.iter().map(|result| result.expanded).sum()),
    goes_on: |cause| cause == 1,
    granted: |share, unspent| share + unspent,
    left: |_, granted, expanded| granted.saturating_sub(expanded),
    backwards: false,
};

impl Passes {
    /// The results; `first` and `second` search a game with a budget.
    pub fn results(
        &self,
        shares: &[u64],
        allowance: u64,
        first: impl Fn(usize, u64) -> ResultFields,
        second: impl Fn(usize, u64) -> ResultFields,
    ) -> Vec<ResultFields> {
        let mut games: Vec<usize> = (0..shares.len()).collect();
        let mut results: Vec<ResultFields> = games.iter().map(|game| first(*game, shares[*game])).collect();
        let mut unspent = (self.unspent)(allowance, shares, &results);
        if self.backwards {
            games.reverse();
        }
        for game in games {
            if (self.goes_on)(results[game].cause) {
                let granted = (self.granted)(shares[game], unspent);
                results[game] = second(game, granted);
                unspent = (self.left)(unspent, granted, results[game].expanded);
            }
        }
        results
    }
}
