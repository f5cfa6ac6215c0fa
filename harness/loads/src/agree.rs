//! Both ways give the same answers, and those of a third reading (`calls`).

use crate::exports::{self, WAYS, WORDS};
use crate::groups::Group;
use calls::record::{Position, LENGTH, O, X};
use calls::table::{board_state, record_refusal, Board};
use calls::{hex, Call, Kind};
use oracle::generate::{self, any_bytes, reading, Random};

/// How many strings of 21 bytes are tried, and how many records of the generator.
const AT_RANDOM: usize = 100_000;
const GENERATED: usize = 100_000;
const SEED: u64 = 1;

/// Where a position's words have the boards won by X, those won by O, the drawn ones, the target and the side.
const STATES: [(usize, Board); 3] = [(18, Board::Won(X)), (19, Board::Won(O)), (20, Board::Drawn)];
const TARGET: usize = 21;
const SIDE: usize = 22;

/// Every record of a group is answered alike, and as the group's check says.
pub fn of_a_group(group: &Group, records: &[Vec<u8>]) -> Result<(), String> {
    let one = |record: &Vec<u8>| same(record).and_then(|()| gives(group.check, record));
    let all = match records {
        [] => Err("no records".to_string()),
        _ => records.iter().try_for_each(one),
    };
    all.map_err(|m| format!("{}: {}", group.name, m))
}

/// Whether both ways give the record this code; else the other one.
fn gives(code: u32, record: &[u8]) -> Result<(), String> {
    let codes = WAYS.map(|way| exports::load(way, record).code);
    match codes.iter().find(|given| **given != code) {
        Some(other) => Err(format!("code {} for {}", other, hex::show(record))),
        None => Ok(()),
    }
}

/// Bytes at random, records that try every place of a record, and the generator's, are answered alike. Gives how many.
pub fn of_others() -> Result<usize, String> {
    let mut random = Random::new(SEED);
    let mut records = reading::records(&mut random);
    records.extend((0..AT_RANDOM).map(|_| any_bytes(&mut random).to_vec()));
    records.extend((0..GENERATED).map(|_| generated(&mut random)));
    records.iter().try_for_each(|record| same(record))?;
    Ok(records.len())
}

/// A record of the generator's.
fn generated(random: &mut Random) -> Vec<u8> {
    let Call::Moves { record, .. } = generate::call(random, Kind::Moves) else { unreachable!() };
    record
}

/// Whether both ways answer as `calls` reads the record; else what differs.
fn same(record: &[u8]) -> Result<(), String> {
    let position = record.first_chunk::<LENGTH>().map(Position::read);
    let (cells, rest) = position.map_or(([0; WORDS], false), |p| (cell_words(&p), p.count(3) > 0));
    let code = record_refusal(record).unwrap_or(0);
    let all = position.map_or([0; WORDS], |p| words(&p));
    for way in WAYS {
        let read = exports::cells(way, record);
        if read.words != cells || (read.rest != 0) != rest {
            let due = format!("{:X?}, a code 3: {}", cells, rest);
            return Err(format!("the cells of {} {}: {:X?}; due is {}", hex::show(record), way, read, due));
        }
        let loaded = exports::load(way, record);
        if loaded.code != code || code == 0 && loaded.words != all {
            let due = format!("code {}, {:X?}", code, all);
            return Err(format!("the load of {} {}: {:X?}; due is {}", hex::show(record), way, loaded, due));
        }
    }
    Ok(())
}

/// X's masks of cells and O's.
fn cell_words(position: &Position) -> [u16; WORDS] {
    let mut words = [0; WORDS];
    for (b, cells) in position.cells.iter().enumerate() {
        words[b] = mask(|c| cells[c] == X);
        words[9 + b] = mask(|c| cells[c] == O);
    }
    words
}

/// All words of an accepted position.
fn words(position: &Position) -> [u16; WORDS] {
    let mut words = cell_words(position);
    for (at, state) in STATES {
        words[at] = mask(|b| board_state(&position.cells[b]) == state);
    }
    words[TARGET] = position.target.into();
    words[SIDE] = position.side.into();
    words
}

/// The number whose bit i says whether it holds of i.
fn mask(holds: impl Fn(usize) -> bool) -> u16 {
    (0..9).map(|i| u16::from(holds(i)) << i).sum()
}
