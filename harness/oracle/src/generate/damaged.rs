//! Records that checks 1 to 6 and 22 refuse, each made by one or two kinds of damage to an accepted one.
//! Which check refuses them is decided in `calls::table`.

use super::positions::{accepted, change, place};
use super::random::Random;
use calls::record::{Position, EMPTY, FREE_CHOICE, LENGTH, O, X};
use calls::table::{board_state, impossible_choice, Board};

/// What is done to an accepted position.
#[derive(Clone, Copy, Debug, PartialEq, Eq)]
pub enum Damage {
    /// A cell of code 3.
    Code,
    /// A target of 9 to 14.
    Target,
    /// A last bit of 1.
    LastBit,
    /// The other side to move.
    Side,
    /// A cell taken, emptied or turned.
    Cell,
    /// A board with lines of both sides.
    BoardWonTwice,
    /// Lines of boards, of either side or both.
    LinesOfBoards,
    /// A target that is done.
    DoneTarget,
    /// Free choice with cells taken and no board done.
    Choice,
}

impl Damage {
    pub const ALL: [Damage; 9] = [
        Damage::Code,
        Damage::Target,
        Damage::LastBit,
        Damage::Side,
        Damage::Cell,
        Damage::BoardWonTwice,
        Damage::LinesOfBoards,
        Damage::DoneTarget,
        Damage::Choice,
    ];

    /// One of them; a done target, which can't be had in every position, twice as often.
    fn any(random: &mut Random) -> Damage {
        random.pick(&[Damage::ALL.as_slice(), &[Damage::DoneTarget]].concat())
    }
}

/// A damaged record, of any length.
pub fn damaged(random: &mut Random) -> Vec<u8> {
    if random.once_in(30) {
        return any_bytes(random).to_vec();
    }
    let mut record = damaged_position(random).write().to_vec();
    if random.once_in(6) {
        resize(random, &mut record);
    }
    record
}

/// An accepted position after one or two kinds of damage.
pub fn damaged_position(random: &mut Random) -> Position {
    let mut position = accepted(random);
    let kind = Damage::any(random);
    damage(random, &mut position, kind);
    if random.once_in(5) {
        let kind = Damage::any(random);
        damage(random, &mut position, kind);
    }
    position
}

/// After so many positions that a kind of damage leaves as they were, it can't be done to any.
const IN_VAIN: usize = 10_000;

/// The record of an accepted position after one kind of damage: of the first position drawn that it changes.
pub fn damaged_by(random: &mut Random, kind: Damage) -> Vec<u8> {
    for _ in 0..IN_VAIN {
        let whole = accepted(random);
        let mut position = whole;
        damage(random, &mut position, kind);
        if position != whole {
            return position.write().to_vec();
        }
    }
    panic!("{:?} has changed none of {} positions", kind, IN_VAIN)
}

/// As many bytes as a record has, at random.
pub fn any_bytes(random: &mut Random) -> [u8; LENGTH] {
    std::array::from_fn(|_| random.byte())
}

/// Another length, most often close to 21.
fn resize(random: &mut Random, record: &mut Vec<u8>) {
    let length = match random.below(3) {
        0 => random.pick(&[0, 1, 19, 20, 22, 23, 42]),
        1 => random.index(21),
        _ => 22 + random.index(40),
    };
    record.resize(length, 0);
}

/// Does it to the position, if it can be done.
pub fn damage(random: &mut Random, position: &mut Position, kind: Damage) {
    match kind {
        Damage::Code => position.cells[random.index(9)][random.index(9)] = 3,
        Damage::Target => position.target = 9 + random.below(6) as u8,
        Damage::LastBit => position.last_bit = 1,
        Damage::Side => position.side = 1 - position.side,
        Damage::Cell => {
            let (from, to) = random.pick(&[(EMPTY, X), (EMPTY, O), (X, EMPTY), (O, EMPTY), (X, O), (O, X)]);
            change(random, position, from, to)
        }
        Damage::BoardWonTwice => lines_of_both_sides(random, position),
        Damage::LinesOfBoards => lines_of_boards(random, position),
        Damage::DoneTarget => done_target(random, position),
        Damage::Choice => free_choice(random, position),
    }
}

/// A board with a row of X and a row of O, counts made to fit again.
fn lines_of_both_sides(random: &mut Random, position: &mut Position) {
    let rows = random.pick(&[[X, O, EMPTY], [O, EMPTY, X], [EMPTY, X, O], [X, O, X]]);
    position.cells[random.index(9)] = std::array::from_fn(|cell| rows[cell / 3]);
    balance(random, position);
}

/// Rows of boards for X, for O or for both, and either side to move.
fn lines_of_boards(random: &mut Random, position: &mut Position) {
    let rows = random.pick(&[[X, EMPTY, EMPTY], [EMPTY, O, EMPTY], [X, O, EMPTY], [O, EMPTY, X]]);
    for board in 0..9 {
        if rows[board / 3] != EMPTY {
            let start = random.index(3) * 3;
            position.cells[board] = std::array::from_fn(|c| if c / 3 == start / 3 { rows[board / 3] } else { EMPTY });
        }
    }
    position.side = random.below(2) as u8;
    balance(random, position);
}

/// Adds cells until the counts fit the side to move, or no cell is empty.
fn balance(random: &mut Random, position: &mut Position) {
    while position.count(EMPTY) > 0 {
        let (x, o) = (position.count(X), position.count(O) + position.side as usize);
        match x.cmp(&o) {
            std::cmp::Ordering::Less => place(random, position, X),
            std::cmp::Ordering::Greater => place(random, position, O),
            std::cmp::Ordering::Equal => return,
        }
    }
}

/// A target that names a done board, if there is one.
fn done_target(random: &mut Random, position: &mut Position) {
    let start = random.index(9);
    let done = (0..9).map(|i| (start + i) % 9).find(|b| board_state(&position.cells[*b]) != Board::InPlay);
    if let Some(board) = done {
        position.target = board as u8;
    }
}

/// Free choice and every done board emptied, or now and then every board, counts made to fit again, if a cell is taken
/// then and no board done.
fn free_choice(random: &mut Random, position: &mut Position) {
    let mut free = Position { target: FREE_CHOICE, ..*position };
    let every = random.once_in(8);
    let emptied = free.cells.iter_mut().filter(|board| every || board_state(board) != Board::InPlay);
    emptied.for_each(|board| *board = [EMPTY; 9]);
    balance(random, &mut free);
    if impossible_choice(&free) {
        *position = free;
    }
}
