//! What a buffer and the rest of its pages hold before a call.

use oracle::generate::Random;

#[derive(Clone, Copy, Debug)]
pub enum Filling {
    /// Any words.
    Random(u64),
    /// Words that could be numbers of nodes.
    Small(u64),
    Zeros,
    Ones,
}

impl Filling {
    pub fn any(random: &mut Random) -> Filling {
        let seed = random.word();
        match random.below(8) {
            0 => Filling::Zeros,
            1 => Filling::Ones,
            2 | 3 => Filling::Small(seed),
            _ => Filling::Random(seed),
        }
    }

    /// Two words of 32 bits, by their place.
    pub fn word(self, at: usize) -> u64 {
        let mixed = |seed: u64| Random::new(seed.wrapping_add(at as u64)).word();
        match self {
            Filling::Random(seed) => mixed(seed),
            Filling::Small(seed) => mixed(seed) & 0x0000_03FF_0000_03FF,
            Filling::Zeros => 0,
            Filling::Ones => u64::MAX,
        }
    }
}
