//! Bytes lent to the library, between two margins and filled with a pattern first, so that a write
//! where none is allowed shows.

const MARGIN: usize = 64;

pub struct Lent {
    bytes: Vec<u8>,
    length: usize,
    pattern: u8,
}

impl Lent {
    /// `length` bytes under a pattern; two patterns that differ leave no written byte unseen.
    pub fn new(length: usize, pattern: u8) -> Lent {
        let bytes = (0..length + 2 * MARGIN).map(|at| filling(pattern, at)).collect();
        Lent { bytes, length, pattern }
    }

    /// Bytes that the call is to find there, the margins under a pattern.
    pub fn holding(bytes: &[u8], pattern: u8) -> Lent {
        let mut lent = Lent::new(bytes.len(), pattern);
        lent.bytes[MARGIN..MARGIN + bytes.len()].copy_from_slice(bytes);
        lent
    }

    pub fn pointer(&mut self) -> *mut u8 {
        self.bytes[MARGIN..].as_mut_ptr()
    }

    /// The first `count` bytes, if all others, margins too, still hold the pattern; else where not.
    pub fn written(&self, count: usize) -> Result<&[u8], String> {
        if count > self.length {
            return Err(format!("{} bytes were said to be written, and {} were lent", count, self.length));
        }
        let mut others = (0..MARGIN).chain(MARGIN + count..self.bytes.len());
        match others.find(|at| self.bytes[*at] != filling(self.pattern, *at)) {
            None => Ok(&self.bytes[MARGIN..MARGIN + count]),
            Some(at) => Err(format!("byte {} was written", self.place(at))),
        }
    }

    /// The bytes are these, as many as were lent, and the margins still hold the pattern; else where not.
    pub fn holds(&self, bytes: &[u8]) -> Result<(), String> {
        let due = Lent::holding(bytes, self.pattern).bytes;
        match (0..due.len()).find(|at| self.bytes[*at] != due[*at]) {
            None => Ok(()),
            Some(at) => Err(format!("byte {} is {:02X}, not {:02X}", self.place(at), self.bytes[at], due[at])),
        }
    }

    fn place(&self, at: usize) -> String {
        format!("{} of a buffer of {}", at as i64 - MARGIN as i64, self.length)
    }
}

fn filling(pattern: u8, at: usize) -> u8 {
    pattern ^ (at as u8).wrapping_mul(29)
}
