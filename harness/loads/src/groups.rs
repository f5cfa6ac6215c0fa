//! Groups of different records: accepted ones by how many cells are taken, and ones damaged so that one check refuses
//! them. All come from random play by the original's own moves; only the empty game is there with every target.

use calls::record::{Position, EMPTY, FREE_CHOICE, LENGTH};
use calls::table::record_refusal;
use oracle::generate::{damage, reachable, reached, Damage, Random};
use oracle::load;
use std::collections::BTreeSet;

/// The most records of a group.
const MOST: usize = 500;
/// So many draws without a new record: there are no more of its kind.
const IN_VAIN: usize = 2_000;
const SEED: u64 = 1;

/// What a group's records are drawn from.
#[derive(Clone, Copy)]
enum Source {
    /// The empty game with any target.
    Empty,
    /// Random play, with at least and at most so many cells taken.
    Taken(usize, usize),
    /// Random play, cut or lengthened.
    Length,
    /// Random play, damaged in one of these ways.
    Damaged(&'static [Damage]),
}

pub struct Group {
    pub name: &'static str,
    /// The check that refuses its records, 0 if they are accepted.
    pub check: u32,
    source: Source,
}

const fn group(name: &'static str, check: u32, source: Source) -> Group {
    Group { name, check, source }
}

pub const GROUPS: [Group; 16] = [
    group("accepted, no cell taken", 0, Source::Empty),
    group("accepted, 1 to 9 taken", 0, Source::Taken(1, 9)),
    group("accepted, 10 to 19", 0, Source::Taken(10, 19)),
    group("accepted, 20 to 29", 0, Source::Taken(20, 29)),
    group("accepted, 30 to 39", 0, Source::Taken(30, 39)),
    group("accepted, 40 to 49", 0, Source::Taken(40, 49)),
    group("accepted, 50 and more", 0, Source::Taken(50, 81)),
    group("refused 1: not 21 bytes", 1, Source::Length),
    group("refused 2: the last bit is 1", 2, Source::Damaged(&[Damage::LastBit])),
    group("refused 2: the target is 9 to 14", 2, Source::Damaged(&[Damage::Target])),
    group("refused 2: a cell has code 3", 2, Source::Damaged(&[Damage::Code])),
    group("refused 3: cell counts", 3, Source::Damaged(&[Damage::Side, Damage::Cell])),
    group("refused 4: a board with lines of both sides", 4, Source::Damaged(&[Damage::BoardWonTwice])),
    group("refused 5: the side to move has a line of boards", 5, Source::Damaged(&[Damage::LinesOfBoards])),
    group("refused 6: the target is done", 6, Source::Damaged(&[Damage::DoneTarget])),
    group("refused 22: free choice, no board done", 22, Source::Damaged(&[Damage::Choice])),
];

impl Group {
    /// Its records, the same each time; as many as there are, or the most.
    pub fn records(&self) -> Vec<Vec<u8>> {
        let mut random = Random::new(SEED);
        let (mut records, mut seen, mut in_vain) = (Vec::new(), BTreeSet::new(), 0);
        while records.len() < MOST && in_vain < IN_VAIN {
            let record = self.source.draw(&mut random);
            if self.fits(&record) && seen.insert(record.clone()) {
                records.push(record);
                in_vain = 0;
            } else {
                in_vain += 1;
            }
        }
        records
    }

    /// Whether reading the cells alone says something: not if there are not 21 bytes.
    pub fn has_cells(&self) -> bool {
        self.check != 1
    }

    /// Whether the table says of the record what the group stands for.
    fn fits(&self, record: &[u8]) -> bool {
        let taken = |bytes: &[u8; LENGTH]| 81 - Position::read(bytes).count(EMPTY);
        record_refusal(record).unwrap_or(0) == self.check
            && match (self.source, record.try_into()) {
                (Source::Taken(least, most), Ok(bytes)) => (least..=most).contains(&taken(bytes)),
                _ => true,
            }
    }
}

impl Source {
    fn draw(self, random: &mut Random) -> Vec<u8> {
        match self {
            Source::Empty => {
                let target = random.pick(&[0, 1, 2, 3, 4, 5, 6, 7, 8, FREE_CHOICE]);
                Position { target, ..Position::start() }.write().to_vec()
            }
            Source::Taken(least, most) => {
                let plies = least + random.index(most - least + 1);
                load::record(&reached(random, plies as u64)).to_vec()
            }
            Source::Length => {
                let mut record = reachable(random).write().to_vec();
                record.resize(random.index(2 * LENGTH), 0);
                record
            }
            Source::Damaged(kinds) => {
                let mut position = reachable(random);
                let kind = random.pick(kinds);
                damage(random, &mut position, kind);
                position.write().to_vec()
            }
        }
    }
}
