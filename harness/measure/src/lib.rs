//! What the benchmarks have in common: their command line, some positions, rounds in which every side is run once, the
//! spread of their numbers, and instructions counted by callgrind.

pub mod callgrind;
pub mod positions;
pub mod program;

use std::fmt;

/// Least, median and most.
#[derive(Clone, Copy, Debug, PartialEq)]
pub struct Spread(pub f64, pub f64, pub f64);

impl fmt::Display for Spread {
    /// As the tables have a ratio; with one digit after the point, or as many as are asked for.
    fn fmt(&self, f: &mut fmt::Formatter) -> fmt::Result {
        let digits = f.precision().unwrap_or(1);
        write!(f, "**{:.*}** ({:.*} to {:.*})", digits, self.1, digits, self.0, digits, self.2)
    }
}

/// The spread of some numbers, at least one.
pub fn spread(mut numbers: Vec<f64>) -> Spread {
    numbers.sort_by(f64::total_cmp);
    Spread(numbers[0], numbers[numbers.len() / 2], numbers[numbers.len() - 1])
}

/// Runs every side once a round, in the given order and in the other by turns. What the runs of a round gave stands
/// in the given order.
pub fn by_turns<S: Copy, R>(
    rounds: usize,
    sides: &[S],
    mut run: impl FnMut(S) -> Result<R, String>,
) -> Result<Vec<Vec<R>>, String> {
    let one = |number: usize| {
        let other = number % 2 == 1;
        let order = (0..sides.len()).map(|at| if other { sides.len() - 1 - at } else { at });
        let mut round = order.map(|at| run(sides[at])).collect::<Result<Vec<R>, String>>()?;
        if other {
            round.reverse();
        }
        Ok(round)
    };
    (0..rounds).map(one).collect()
}

#[cfg(test)]
mod tests {
    use super::{by_turns, spread, Spread};

    #[test]
    fn a_spread_is_least_median_and_most() {
        assert_eq!(spread(vec![3.0, 1.0, 2.0]), Spread(1.0, 2.0, 3.0));
        assert_eq!(spread(vec![5.0]).to_string(), "**5.0** (5.0 to 5.0)");
        assert_eq!(format!("{:.2}", spread(vec![5.0])), "**5.00** (5.00 to 5.00)");
    }

    #[test]
    fn sides_are_run_in_changing_order() {
        let mut ran = Vec::new();
        let rounds = by_turns(3, &['a', 'b'], |side| {
            ran.push(side);
            Ok(side)
        });
        assert_eq!(ran, ['a', 'b', 'b', 'a', 'a', 'b']);
        assert_eq!(rounds, Ok(vec![vec!['a', 'b']; 3]));
    }
}
