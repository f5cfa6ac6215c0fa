//! Staying on a line.

/// Whether a search stays with a reply that is nearly level with the best.
///
/// At each position a search looks into the reply that needs the least to be settled. In long endings two replies are
/// often nearly level, and it goes from one to the other and back. With a margin it goes on with the reply that it took
/// last at that position as long as this one is unsettled and what it needs is at most 1 + margin times the least. Some
/// endings are solved with fewer expansions so, others with more.
///
/// True or False is the position's value whatever the setting is. All other fields of a result can depend on it, and
/// so can whether a search comes to a verdict with its pool, limit and budget. A result that is True or False is the
/// same with more of these three if it has the same interval and the same `Stay`.
///
/// ```
/// use ultimattt::{search, Pool, Refusal, Rule, Settings, Stay, EMPTY_GAME};
///
/// let with = |stay| Settings { budget: 200, stay, ..Settings::default() };
/// let searched = |stay| search(&EMPTY_GAME, &mut Pool::default(), Rule::DrawFalse, &with(stay));
/// assert_ne!(searched(Stay::Margin(0.25)), searched(Stay::Off));
/// assert_eq!(searched(Stay::Margin(0.1)), Err(Refusal::Margin));
/// ```
#[derive(Clone, Copy, Debug, Default, PartialEq)]
pub enum Stay {
    /// Of replies that are level the one listed first is taken, whichever was taken last.
    #[default]
    Off,
    /// 0 to 1, and a whole multiple of 1/256; -0.0 counts as 0.0. Any other is refused with
    /// [`Refusal::Margin`](crate::Refusal::Margin). Margin 0 is not off: of replies that are level the one taken last
    /// is taken again.
    Margin(f64),
}

impl Stay {
    /// What a call is given: staying and margin. With the first false the second is not read.
    pub(crate) fn passed(self) -> (bool, f64) {
        match self {
            Stay::Off => (false, 0.0),
            Stay::Margin(margin) => (true, margin),
        }
    }
}
