//! The records that try loading place by place are there, every one that `generate::reading` says.

use calls::book::ENTRY;
use calls::record::{Position, EMPTY, FREE_CHOICE, LENGTH, O, X};
use calls::table::{board_state, finished, games_refusal, has_line, record_refusal, Board};
use calls::{BookCall, Call, Kind};
use oracle::generate::{reading, Damage, Random};
use std::collections::BTreeSet;

/// The list, with each record's refusal, 0 for none.
fn list() -> Vec<(Vec<u8>, u32)> {
    let records = reading::records(&mut Random::new(1));
    records.into_iter().map(|record| (record.clone(), record_refusal(&record).unwrap_or(0))).collect()
}

fn positions(list: &[(Vec<u8>, u32)]) -> impl Iterator<Item = (Position, u32)> + '_ {
    list.iter().filter_map(|(record, refusal)| Some((Position::read(record.as_slice().try_into().ok()?), *refusal)))
}

#[test]
fn the_list_has_its_length() {
    let records = reading::records(&mut Random::new(1));
    let lists: Vec<_> = records.iter().flat_map(|record| reading::lists_of(record)).collect();
    assert_eq!((records.len(), lists.len(), lists.iter().flatten().count()), (10_930, 87_440, 174_880));
}

/// Refused by each check, and by check 3 and check 22 with either side to move.
#[test]
fn every_check_refuses_some() {
    let list = list();
    let refusals: BTreeSet<u32> = list.iter().map(|(_, refusal)| *refusal).collect();
    assert_eq!(refusals, (0..=6).chain([22]).collect());
    for check in [3, 22] {
        let refused = positions(&list).filter(|(_, refusal)| *refusal == check);
        assert_eq!(refused.map(|(p, _)| p.side).collect::<BTreeSet<u8>>(), [0, 1].into());
    }
}

#[test]
fn every_length_and_target_is_there() {
    let list = list();
    let lengths: BTreeSet<usize> = list.iter().map(|(record, _)| record.len()).collect();
    assert_eq!(lengths, (0..=24).collect());
    let targets = |refusal| positions(&list).filter(move |(_, r)| *r == refusal).map(|(p, _)| p.target);
    assert!(targets(0).collect::<BTreeSet<u8>>().iter().copied().eq((0..=8).chain([15])));
    assert!(targets(6).collect::<BTreeSet<u8>>().iter().copied().eq(0..=8));
    assert_eq!(targets(22).collect::<BTreeSet<u8>>(), [15].into());
    let others: BTreeSet<u8> = targets(2).collect();
    assert!((9..=14).all(|target| others.contains(&target)));
}

/// An accepted record with each bit turned is there.
#[test]
fn every_bit_is_turned() {
    let records: BTreeSet<Vec<u8>> = list().into_iter().map(|(record, _)| record).collect();
    let turned = |record: &[u8], bit: usize| {
        let mut other = record.to_vec();
        other[bit / 8] ^= 128 >> (bit % 8);
        other
    };
    let whole = |record: &&Vec<u8>| (0..8 * LENGTH).all(|bit| records.contains(&turned(record, bit)));
    let accepted = records.iter().filter(|record| record_refusal(record).is_none());
    let bases: Vec<Position> =
        accepted.filter(whole).map(|r| Position::read(r.as_slice().try_into().expect("accepted"))).collect();
    assert!(bases.len() >= 16 && bases.iter().any(finished) && bases.iter().any(|p| p.side == 1), "{}", bases.len());
}

/// Every cell has each code in an accepted record and code 3 in a refused one; around the cell whose bits are in two
/// words there are all codes of three cells.
#[test]
fn every_cell_has_every_code() {
    let list = list();
    let (mut single, mut three) = (BTreeSet::new(), BTreeSet::new());
    for (position, refusal) in positions(&list) {
        let codes = position.cells.as_flattened();
        single.extend((0..81).map(|at| (at, codes[at])).filter(|(_, code)| (*code < 3) == (refusal == 0)));
        if refusal == 0 || codes[28..=30].contains(&3) {
            three.insert(codes[28..=30].to_vec());
        }
    }
    assert_eq!((single.len(), three.len()), (4 * 81, 64));
}

/// Before the 400 records at random stand 50 of each kind of damage, each with what the kind names.
#[test]
fn every_damage_is_done() {
    let list = list();
    let (before, _) = list.split_at(list.len() - 400);
    let records: Vec<(Position, u32)> = positions(&before[before.len() - 50 * Damage::ALL.len()..]).collect();
    for (kind, records) in Damage::ALL.into_iter().zip(records.chunks(50)) {
        let undone = records.iter().find(|(position, refusal)| !is_done(kind, position, *refusal));
        assert_eq!((records.len(), undone), (50, None), "{:?}", kind);
    }
}

/// The damage is there; where it is simply taken back, the position is accepted.
fn is_done(kind: Damage, position: &Position, refusal: u32) -> bool {
    match kind {
        Damage::Code => position.count(3) == 1 && one_cell_from_accepted(position),
        Damage::Target => (9..=14).contains(&position.target) && accepted_with_a_target(position),
        Damage::LastBit => position.last_bit == 1 && is_accepted(&Position { last_bit: 0, ..*position }),
        Damage::Side => refusal == 3 && is_accepted(&Position { side: 1 - position.side, ..*position }),
        Damage::Cell => refusal == 3 && one_cell_from_accepted(position),
        Damage::BoardWonTwice => position.cells.iter().any(|board| has_line_of(board, X) && has_line_of(board, O)),
        Damage::LinesOfBoards => [X, O].iter().any(|code| has_line(&position.cells.map(|b| has_line_of(&b, *code)))),
        Damage::DoneTarget => {
            let done = |board: &[u8; 9]| board_state(board) != Board::InPlay;
            let free = Position { target: FREE_CHOICE, ..*position };
            position.cells.get(position.target as usize).is_some_and(done) && is_accepted(&free)
        }
        Damage::Choice => refusal == 22 && (0..9).all(|target| is_accepted(&Position { target, ..*position })),
    }
}

/// Whether some target makes it an accepted position.
fn accepted_with_a_target(position: &Position) -> bool {
    (0..9).chain([FREE_CHOICE]).any(|target| is_accepted(&Position { target, ..*position }))
}

fn is_accepted(position: &Position) -> bool {
    record_refusal(&position.write()).is_none()
}

/// Whether another code at one cell makes it an accepted position.
fn one_cell_from_accepted(position: &Position) -> bool {
    let with = |at: usize, code| {
        let mut position = *position;
        position.cells[at / 9][at % 9] = code;
        position
    };
    (0..81).any(|at| [EMPTY, X, O].iter().any(|code| is_accepted(&with(at, *code))))
}

fn has_line_of(board: &[u8; 9], code: u8) -> bool {
    has_line(&board.map(|cell| cell == code))
}

/// The calls of games are refused for the record alone: each of the eight games for some, and by each check several.
#[test]
fn every_game_is_refused_for_its_record() {
    let mut seen = BTreeSet::new();
    for (record, refusal) in list().iter().filter(|(record, _)| record.len() == LENGTH) {
        let lists = reading::lists_of(record);
        let Some(Call::Games(games)) = lists.iter().map(|list| &list[0]).find(|call| call.kind() == Kind::Games) else {
            unreachable!()
        };
        let refused = games_refusal(games);
        assert_eq!(refused.map_or(0, |(check, _)| check), *refusal);
        seen.extend(refused);
    }
    let places = |check| seen.iter().filter(|(number, _)| *number == check).count();
    let games: BTreeSet<u64> = seen.iter().map(|(_, game)| *game).collect();
    assert!(games.into_iter().eq(0..8) && (2..=6).chain([22]).all(|check| places(check) > 4), "{:?}", seen);
}

/// Among the books of accepted records every bit of an entry's record is turned somewhere.
#[test]
fn every_bit_of_an_entry_is_turned() {
    let mut seen = BTreeSet::new();
    for (record, _) in list().iter().filter(|(_, refusal)| *refusal == 0) {
        let lists = reading::lists_of(record);
        let Some(Call::Book(BookCall::Set(book))) = lists.last().map(|list| &list[0]) else { unreachable!() };
        let entries: BTreeSet<&[u8]> = book.bytes.chunks(ENTRY).map(|entry| &entry[..LENGTH]).collect();
        seen.extend((0..8 * LENGTH).filter(|bit| entries.contains(reading::turned(record, *bit).as_slice())));
    }
    assert_eq!(seen.len(), 8 * LENGTH);
}
