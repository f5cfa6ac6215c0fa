//! Margins of searches: off, whole multiples of 1/256, and floats that are none.

use super::random::Random;
use calls::Stay;

/// Bits of a float.
const SIGN: u64 = 1 << 63;
const INFINITE: u64 = 0x7FF << 52;
const QUIET: u64 = 1 << 51;
/// How many 256ths the largest margin has.
const MOST: u64 = 256;

/// Somewhat over half are margins that are taken, 0 and 1 often among them; about one in twelve is refused. For a phi of
/// 1, 2 or 4 the largest delta that is near goes up by one from 255 to 256 parts, from 127 to 128, from 63 to 64.
pub fn stay(random: &mut Random) -> Stay {
    match random.below(24) {
        0..=8 => Stay::Off,
        9 | 10 => Stay::Margin(no_margin(random)),
        11 => Stay::margin(random.pick(&[0.0, -0.0])),
        12..=14 => Stay::of_256ths(0),
        15..=17 => Stay::of_256ths(MOST),
        18 | 19 => Stay::of_256ths(random.pick(&[1, 63, 64, 127, 128, 255])),
        _ => Stay::of_256ths(random.below(MOST + 1)),
    }
}

/// The bits of a float that is no margin. Of those at random, or with one bit turned, a few are.
pub fn no_margin(random: &mut Random) -> u64 {
    let (number, sign) = (1 + random.below(MOST), random.pick(&[0, SIGN]));
    let multiple = (number as f64 / MOST as f64).to_bits();
    match random.below(10) {
        0 => multiple + 1,
        1 => multiple - 1,
        2 => ((2 * number - 1) as f64 / 512.0).to_bits(),
        3 => random.pick(&[1.0 + number as f64 / 256.0, 257.0 / 256.0, 2.0, 256.0, f64::MAX]).to_bits(),
        4 => SIGN | multiple,
        5 => sign | INFINITE,
        6 => sign | not_a_number(random),
        7 => sign | subnormal(random),
        8 => random.word(),
        _ => multiple ^ 1 << random.below(64),
    }
}

/// Quiet or signalling, with any payload.
fn not_a_number(random: &mut Random) -> u64 {
    let any = random.word() % QUIET;
    match random.pick(&[0, 1, QUIET - 1, any]) {
        0 => INFINITE | QUIET,
        payload => INFINITE | payload | random.pick(&[0, QUIET]),
    }
}

/// Next to 0, or the largest, or another; and the least float that is none.
fn subnormal(random: &mut Random) -> u64 {
    let any = 1 + random.word() % (2 * QUIET - 1);
    random.pick(&[1, 2, 2 * QUIET - 1, 2 * QUIET, any])
}
