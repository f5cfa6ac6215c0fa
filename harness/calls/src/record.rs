//! The record of 21 bytes (MANUAL, Record), read and written bit by bit. Reading takes any
//! 21 bytes; what is refused is decided in `table`.

/// Bytes of a record.
pub const LENGTH: usize = 21;
/// The target that stands for a free choice.
pub const FREE_CHOICE: u8 = 15;
/// Cell codes.
pub const EMPTY: u8 = 0;
pub const X: u8 = 1;
pub const O: u8 = 2;

/// The fields of a record, unchecked: a cell may hold code 3, the target may name no board.
#[derive(Clone, Copy, Debug, PartialEq, Eq)]
pub struct Position {
    /// 0 for X to move, 1 for O.
    pub side: u8,
    pub target: u8,
    /// `cells[board][cell]`
    pub cells: [[u8; 9]; 9],
    /// The bit after the cells.
    pub last_bit: u8,
}

impl Position {
    /// The empty game.
    pub fn start() -> Position {
        Position { side: 0, target: FREE_CHOICE, cells: [[EMPTY; 9]; 9], last_bit: 0 }
    }

    pub fn read(record: &[u8; LENGTH]) -> Position {
        let cell = |board, cell| take(record, 5 + 2 * (9 * board + cell), 2);
        Position {
            side: take(record, 0, 1),
            target: take(record, 1, 4),
            cells: std::array::from_fn(|b| std::array::from_fn(|c| cell(b, c))),
            last_bit: take(record, 167, 1),
        }
    }

    pub fn write(&self) -> [u8; LENGTH] {
        let mut record = [0; LENGTH];
        put(&mut record, 0, 1, self.side);
        put(&mut record, 1, 4, self.target);
        for board in 0..9 {
            for cell in 0..9 {
                put(&mut record, 5 + 2 * (9 * board + cell), 2, self.cells[board][cell]);
            }
        }
        put(&mut record, 167, 1, self.last_bit);
        record
    }

    /// How many cells hold `code`.
    pub fn count(&self, code: u8) -> usize {
        self.cells.iter().flatten().filter(|c| **c == code).count()
    }
}

/// `width` bits from bit `from` on, the most significant first.
fn take(record: &[u8; LENGTH], from: usize, width: usize) -> u8 {
    let mut value = 0;
    for bit in from..from + width {
        value = 2 * value + (record[bit / 8] >> (7 - bit % 8)) % 2;
    }
    value
}

/// Sets `width` bits, zero before, from bit `from` on.
fn put(record: &mut [u8; LENGTH], from: usize, width: usize, value: u8) {
    for i in 0..width {
        let bit = from + i;
        let set = (value >> (width - 1 - i)) % 2;
        record[bit / 8] |= set << (7 - bit % 8);
    }
}
