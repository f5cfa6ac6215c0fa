//! Records that try loading place by place: every bit, every code at every cell, every target and length, each kind
//! of damage. Which of them are refused, and by which check, is decided in `calls::table`.

use super::damaged::{any_bytes, damaged_by, Damage};
use super::positions::{accepted, reached};
use super::random::Random;
use crate::load;
use calls::book::{entry, MARK};
use calls::games::MOST_GAMES;
use calls::record::{Position, LENGTH};
use calls::table::{MOVES_ROOM, RECORD_ROOM};
use calls::{Book, BookCall, Call, Games, Simulation, Stay, Who};

/// Positions that are changed at every place: of random play after so many moves or at the game's end, and so many
/// other accepted ones, most of which no game reaches.
const PLIES: [u64; 10] = [0, 1, 2, 9, 18, 27, 36, 45, 54, 81];
const OTHERS: usize = 6;
/// The longest record.
const LONGEST: usize = 24;
/// Bits of a record.
const BITS: usize = 8 * LENGTH;
const CELLS: usize = 81;
/// A record with a cell of this code is refused.
const NO_CODE: u8 = 3;
/// The cell whose bits are in two words, if a record is read in words of eight bytes from its start on.
const PARTED: usize = 29;
/// How many records there are with one code at one cell, with three codes around the parted cell, of one kind of
/// damage, and of bytes at random.
const OF_A_CODE: usize = 4;
const OF_THREE_CODES: usize = 4;
const OF_A_DAMAGE: usize = 50;
const AT_RANDOM: usize = 400;

/// All of them, the same for the same numbers.
pub fn records(random: &mut Random) -> Vec<Vec<u8>> {
    let played = PLIES.map(|plies| Position::read(&load::record(&reached(random, plies))));
    let others = [(); OTHERS].map(|()| accepted(random));
    let mut records: Vec<Vec<u8>> = played.iter().chain(&others).flat_map(changed).collect();
    records.extend((0..CELLS).flat_map(|at| with_each_code(random, at)));
    records.extend((0..64).flat_map(|codes| around_the_parted_cell(random, codes)));
    records.extend(Damage::ALL.into_iter().flat_map(|kind| of_a_damage(random, kind)));
    records.extend((0..AT_RANDOM).map(|_| any_bytes(random).to_vec()));
    records
}

/// Calls that load a record and then do little, each a list of its own: the record itself is given back, and the
/// position's legal moves and children are made. Of an accepted one the referee refuses the rule, and simulated players
/// play a game. The last list is a book's.
pub fn lists_of(record: &[u8]) -> Vec<Vec<Call>> {
    let record = || record.to_vec();
    let (pool, limit, budget, interval, stay) = (82, u64::MAX, 1, 1, Stay::Off);
    let budgets = [0, 1];
    vec![
        vec![Call::Replay { record: record(), moves: vec![], output: RECORD_ROOM }],
        vec![Call::Moves { record: record(), output: MOVES_ROOM }],
        vec![Call::Search { record: record(), rule: 0, pool, limit, budget, interval, stay }],
        vec![Call::Full { record: record(), pool, limit, budget, interval, stay }],
        vec![Call::Referee { record: record(), rule: 3 }],
        vec![Call::Games(games_with(record()))],
        vec![Call::Simulate(Simulation { record: record(), seed: 1, games: 1, pool, limit, interval, budgets, stay })],
        lines_of_a_book(record()).map(Call::Book).to_vec(),
    ]
}

/// Eight games, one of them with the record and the others empty, and an expansion for each.
fn games_with(record: Vec<u8>) -> Games {
    let mut records = vec![Position::start().write().to_vec(); MOST_GAMES];
    let at = place(&record);
    records[at] = record;
    let (pool, allowance) = (82 * MOST_GAMES as u64, MOST_GAMES as u64);
    let (shares, stay) = ([1; MOST_GAMES], Stay::Off);
    Games { records: records.concat(), rule: 0, pool, limit: u64::MAX, allowance, interval: 1, shares, stay }
}

/// One of eight places, by the record's bytes.
fn place(record: &[u8]) -> usize {
    record.iter().map(|byte| usize::from(*byte)).sum::<usize>() % 8
}

/// Calls of a book with entries that don't hold the record, then an unpublished True and a published False for
/// it. Under rule 2 there is an entry past the count alone. Of the first 21 each has one bit turned, in another byte.
fn lines_of_a_book(record: Vec<u8>) -> [BookCall; 9] {
    let mut whole = record.clone();
    whole.resize(LENGTH, 0);
    let near = (0..LENGTH).flat_map(|at| entry(&turned(&whole, 8 * at + place(&whole)), 0, 2, MARK));
    let others = [entry(&whole, 1, 2, MARK), entry(&whole, 0, 0, MARK), entry(&whole, 0, 3, MARK)];
    let of_record = [entry(&whole, 0, 1, 6), entry(&whole, 0, 2, MARK), entry(&whole, 2, 1, MARK)];
    let bytes = near.chain(others.concat()).chain(of_record.concat()).collect();
    let book = Book { bytes, count: LENGTH as u64 + 5 };
    let (record, who, stay) = (|| record.clone(), Who::Arbiter, Stay::Off);
    let lookup = |who, rule| BookCall::Lookup { who, record: record(), rule };
    let publish = |rule| BookCall::Publish { who, record: record(), rule };
    [
        BookCall::Set(book),
        lookup(Who::Arbiter, 0),
        lookup(Who::Arbiter, 2),
        lookup(Who::Trainer, 0),
        lookup(Who::Trainer, 2),
        BookCall::Add { who, record: record(), rule: 0, pool: 1, limit: 0, budget: 0, interval: 1, stay },
        publish(2),
        publish(0),
        lookup(Who::Trainer, 0),
    ]
}

/// The record with one bit turned.
pub fn turned(record: &[u8], bit: usize) -> Vec<u8> {
    let mut turned = record.to_vec();
    turned[bit / 8] ^= 128 >> (bit % 8);
    turned
}

/// The position's record with each bit turned, each code at each cell, each target, and of each length.
fn changed(position: &Position) -> Vec<Vec<u8>> {
    let cell = |at: usize, code| {
        let mut position = *position;
        position.cells[at / 9][at % 9] = code;
        position.write().to_vec()
    };
    let long = |length| {
        let mut record = position.write().to_vec();
        record.resize(length, 0);
        record
    };
    let mut records: Vec<Vec<u8>> = (0..BITS).map(|bit| turned(&position.write(), bit)).collect();
    records.extend((0..CELLS).flat_map(|at| (0..=NO_CODE).map(move |code| cell(at, code))));
    records.extend((0..16).map(|target| Position { target, ..*position }.write().to_vec()));
    records.extend((0..=LONGEST).map(long));
    records
}

/// Records with each code at cell `at`.
fn with_each_code(random: &mut Random, at: usize) -> Vec<Vec<u8>> {
    (0..=NO_CODE).flat_map(|code| [(); OF_A_CODE].map(|()| with_codes(random, at, &[code]))).collect()
}

/// Records with the three codes of this number, two bits each, before, at and after the parted cell.
fn around_the_parted_cell(random: &mut Random, codes: u8) -> [Vec<u8>; OF_THREE_CODES] {
    let three = [codes / 16, codes / 4 % 4, codes % 4];
    [(); OF_THREE_CODES].map(|()| with_codes(random, PARTED - 1, &three))
}

fn of_a_damage(random: &mut Random, kind: Damage) -> [Vec<u8>; OF_A_DAMAGE] {
    [(); OF_A_DAMAGE].map(|()| damaged_by(random, kind))
}

/// An accepted position with these codes from cell `at` on; where one is no code, it is put there afterwards.
fn with_codes(random: &mut Random, at: usize, codes: &[u8]) -> Vec<u8> {
    loop {
        let mut position = accepted(random);
        let cells = &mut position.cells.as_flattened_mut()[at..at + codes.len()];
        if cells.iter().zip(codes).all(|(cell, code)| cell == code || *code == NO_CODE) {
            cells.copy_from_slice(codes);
            return position.write().to_vec();
        }
    }
}
