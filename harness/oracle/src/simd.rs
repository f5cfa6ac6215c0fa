//! Eight lanes of sixteen bits: the little of std::simd that the original uses.

use std::ops::BitAnd;

#[allow(non_camel_case_types)]
#[derive(Clone, Copy)]
pub struct u16x8([u16; 8]);

/// The outcome of a comparison, lane by lane.
pub struct Lanes([bool; 8]);

impl u16x8 {
    pub const fn from_array(lanes: [u16; 8]) -> Self {
        u16x8(lanes)
    }

    pub fn splat(value: u16) -> Self {
        u16x8([value; 8])
    }

    pub fn lanes_eq(self, other: Self) -> Lanes {
        Lanes(std::array::from_fn(|i| self.0[i] == other.0[i]))
    }
}

impl BitAnd for u16x8 {
    type Output = Self;

    fn bitand(self, other: Self) -> Self {
        u16x8(std::array::from_fn(|i| self.0[i] & other.0[i]))
    }
}

impl Lanes {
    pub fn any(self) -> bool {
        self.0.contains(&true)
    }
}

#[cfg(test)]
mod tests {
    use super::u16x8;
    use calls::table::has_line;

    /// Used as the original does, the lanes find a line in the low nine bits, for every sixteen.
    #[test]
    fn lanes_find_lines() {
        let masks = u16x8::from_array([0x7, 0x38, 0x1c0, 0x49, 0x92, 0x124, 0x111, 0x54]);
        for bits in 0..=u16::MAX {
            let cells = std::array::from_fn(|cell| bits >> cell & 1 == 1);
            assert_eq!((u16x8::splat(bits) & masks).lanes_eq(masks).any(), has_line(&cells), "{:b}", bits);
        }
    }
}
