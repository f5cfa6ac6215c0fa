//! Staying on a line (MANUAL): a setting of every call that searches. It is the last word of the lines of `search`,
//! `full`, `book add`, `eight` and `sim`:
//!
//! ```text
//! [MARGIN]    the 16 hexadecimal digits of the bits of a 64-bit float, or `off`; where it is left out it is off
//! ```

use crate::hex;
use std::fmt;

/// A margin is a whole number of these parts of 1, up to all of them.
const PARTS: f64 = 256.0;

/// Off, or a margin as the bits of its float, whatever they are.
#[derive(Clone, Copy, Debug, Default, PartialEq, Eq)]
pub enum Stay {
    #[default]
    Off,
    Margin(u64),
}

impl Stay {
    pub const fn margin(margin: f64) -> Stay {
        Stay::Margin(margin.to_bits())
    }

    /// A margin of so many 256ths.
    pub const fn of_256ths(number: u64) -> Stay {
        Stay::margin(number as f64 / PARTS)
    }

    /// How many 256ths the margin is: none if it is off or no margin that is taken. A finite product is exact.
    pub fn in_256ths(self) -> Option<u64> {
        let Stay::Margin(bits) = self else { return None };
        let number = PARTS * f64::from_bits(bits);
        ((0.0..=PARTS).contains(&number) && number.fract() == 0.0).then_some(number as u64)
    }

    /// Check 21 fails.
    pub fn is_refused(self) -> bool {
        self != Stay::Off && self.in_256ths().is_none()
    }

    /// The two values that a call of the library is given. With the setting off the second is not read: `unread`.
    pub fn passed(self, unread: f64) -> (bool, f64) {
        match self {
            Stay::Off => (false, unread),
            Stay::Margin(bits) => (true, f64::from_bits(bits)),
        }
    }
}

impl fmt::Display for Stay {
    fn fmt(&self, f: &mut fmt::Formatter) -> fmt::Result {
        match self {
            Stay::Off => write!(f, "off"),
            Stay::Margin(bits) => write!(f, "{:016X}", bits),
        }
    }
}

/// The last word of a line. It is left out where it is off.
pub(crate) fn write_last(f: &mut fmt::Formatter, stay: Stay) -> fmt::Result {
    match stay {
        Stay::Off => Ok(()),
        margin => write!(f, " {}", margin),
    }
}

/// Reads what comes after all other words of a line, or says what is wrong with it.
pub(crate) fn read_last(rest: &[&str]) -> Result<Stay, String> {
    match rest {
        [] | ["off"] => Ok(Stay::Off),
        [digits] => bits(digits).map(Stay::Margin).ok_or_else(|| wrong(digits)),
        [_, more, ..] => Err(format!("nothing comes after the margin, but {:?} does", more)),
    }
}

fn bits(digits: &str) -> Option<u64> {
    let bytes = hex::read(digits)?.try_into().ok()?;
    Some(u64::from_be_bytes(bytes))
}

fn wrong(word: &str) -> String {
    format!("margin: {:?} is not 16 digits in hexadecimal, nor off", word)
}
