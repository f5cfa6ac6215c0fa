//! Verdicts, causes and results.

use crate::ffi::ResultFields;
use std::fmt;

/// Stops at a number that the library is proved not to give: its declarations here are then another version's.
pub(crate) fn unnamed(field: &str, number: u32) -> ! {
    panic!("libultimattt answered {field} {number}, which has no name: library and wrapper are of two versions")
}

/// What a search found out about the side to move, under its rule.
#[derive(Clone, Copy, Debug, PartialEq, Eq, Hash)]
pub enum Verdict {
    Unknown,
    True,
    False,
}

impl Verdict {
    pub(crate) fn named(number: u32) -> Verdict {
        match number {
            0 => Verdict::Unknown,
            1 => Verdict::True,
            2 => Verdict::False,
            _ => unnamed("verdict", number),
        }
    }
}

/// Why a search ended.
#[derive(Clone, Copy, Debug, PartialEq, Eq, Hash)]
pub enum Cause {
    /// 0: the verdict is True or False.
    Solved,
    /// 1: as many expansions as the budget allows.
    BudgetSpent,
    /// 2: fewer free nodes than the next expansion would take: one for each child that it makes.
    PoolShort,
    /// 3: more live nodes than the limit, seen on an interval-th expansion.
    OverLimit,
}

impl Cause {
    fn named(number: u32) -> Cause {
        match number {
            0 => Cause::Solved,
            1 => Cause::BudgetSpent,
            2 => Cause::PoolShort,
            3 => Cause::OverLimit,
            _ => unnamed("cause", number),
        }
    }

    /// The number in a result's ninth field.
    pub fn number(self) -> u32 {
        match self {
            Cause::Solved => 0,
            Cause::BudgetSpent => 1,
            Cause::PoolShort => 2,
            Cause::OverLimit => 3,
        }
    }
}

impl fmt::Display for Cause {
    fn fmt(&self, f: &mut fmt::Formatter) -> fmt::Result {
        f.write_str(match self {
            Cause::Solved => "the position is solved",
            Cause::BudgetSpent => "the budget of expansions was spent",
            Cause::PoolShort => "the pool was too small",
            Cause::OverLimit => "there were more live nodes than the limit",
        })
    }
}

/// The result of a search. It is displayed as the program judge prints it: the nine fields, one space between.
///
/// What proof and disproof mean in an Unknown: the search has come to positions, after some moves, that it had not
/// looked into when it ended. Proof 3: some three of these undecided positions, all turning out True, would settle it
/// as True; no two would. Disproof likewise with False. True and False are said for the side to move in the record,
/// of these positions too. A position that two orders of moves lead to counts each time. The numbers say nothing of
/// how likely it is.
#[derive(Clone, Copy, Debug, PartialEq, Eq, Hash)]
pub struct SearchResult {
    pub verdict: Verdict,
    /// How many undecided positions would settle it as True, if all turned out True; 0 if it is True. From
    /// [`crate::INFINITY`] upward it stands for infinity: it is False.
    pub proof: u32,
    /// Likewise False.
    pub disproof: u32,
    /// Nodes made, the root too.
    pub allocated: u64,
    /// Nodes freed.
    pub freed: u64,
    /// Expanded nodes that were proved.
    pub proved: u64,
    /// Expanded nodes that were disproved.
    pub disproved: u64,
    /// Expansions, what the budget counts.
    pub expanded: u64,
    pub cause: Cause,
}

impl From<ResultFields> for SearchResult {
    fn from(r: ResultFields) -> SearchResult {
        SearchResult {
            verdict: Verdict::named(r.verdict),
            proof: r.proof,
            disproof: r.disproof,
            allocated: r.allocated,
            freed: r.freed,
            proved: r.proved,
            disproved: r.disproved,
            expanded: r.expanded,
            cause: Cause::named(r.cause),
        }
    }
}

impl fmt::Display for SearchResult {
    fn fmt(&self, f: &mut fmt::Formatter) -> fmt::Result {
        write!(f, "{:?} {} {} ", self.verdict, self.proof, self.disproof)?;
        write!(f, "{} {} {} {} ", self.allocated, self.freed, self.proved, self.disproved)?;
        write!(f, "{} {}", self.expanded, self.cause.number())
    }
}

/// What best play gives the side to move.
#[derive(Clone, Copy, Debug, PartialEq, Eq, Hash)]
pub enum FullVerdict {
    Unknown,
    Win,
    Loss,
    Draw,
    AtLeastDraw,
    AtMostDraw,
}

impl FullVerdict {
    pub(crate) fn named(number: u32) -> FullVerdict {
        match number {
            0 => FullVerdict::Unknown,
            1 => FullVerdict::Win,
            2 => FullVerdict::Loss,
            3 => FullVerdict::Draw,
            4 => FullVerdict::AtLeastDraw,
            5 => FullVerdict::AtMostDraw,
            _ => unnamed("full verdict", number),
        }
    }
}

/// A full verdict and the two searches that it comes from.
#[derive(Clone, Copy, Debug, PartialEq, Eq, Hash)]
pub struct FullResult {
    pub verdict: FullVerdict,
    /// Under rule 1: can the side to move force a win?
    pub first: SearchResult,
    /// Under rule 2: can it force at least a draw?
    pub second: SearchResult,
}
