//! Games for the tests, and what bounds them.

use super::{bytes, d, record, w, E, FREE_CHOICE, G};
use ultimattt::{replay, GamesSettings, Record, GAMES_MOST};

/// An allowance and a share for each game; those past them are out of range.
pub fn shared(allowance: u64, shares: &[u64]) -> GamesSettings {
    let mut all = [u64::MAX; GAMES_MOST];
    all[..shares.len()].copy_from_slice(shares);
    GamesSettings { allowance, shares: all, ..GamesSettings::default() }
}

/// An ending of seven expansions under rule 0.
pub fn ending() -> Record {
    record("7822D2CD2B352CCB12D4CB52C9534A84CCB334AD52")
}

/// Eight games: two endings of 4 to 13 expansions, two won at once, one finished, three far from their end.
pub fn eight() -> [Record; GAMES_MOST] {
    let after = |moves: usize| replay(&E, &bytes(G)[..moves]).expect("moves of a game");
    let other = record("7815004ACB44C549123044C0CA32B2CA2B13342294");
    [ending(), w(), other, after(20), d(FREE_CHOICE), after(18), E, after(7)]
}
