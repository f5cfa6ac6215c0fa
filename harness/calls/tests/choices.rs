//! Check 22, a free choice that can't be, in every call that loads a record.

use calls::book::entry;
use calls::record::{Position, EMPTY, FREE_CHOICE, O, X};
use calls::table::{self, games_refusal, impossible_choice, record_refusal, refusal_to_6, LARGEST_POOL};
use calls::{hex, Book, Games, Stay, Who};

/// W of the manual, D, a finished game, and D with a done target: check 6.
const W: &str = "12A000A80028051500054000000000000000000000";
const D: &str = "7AB400AC0054001500054000A8002A000A80054000";
const DONE_TARGET: &str = "02B400AC0054001500054000A8002A000A80054000";

/// A drawn board with five cells of X's, and one with five of O's.
const DRAWN: [u8; 9] = [X, O, X, X, O, O, O, X, X];
const DRAWN_TOO: [u8; 9] = [O, X, O, O, X, X, X, O, O];

/// O's turn after a first move at 00, with this target.
fn one_cell(target: u8) -> Position {
    let mut position = Position { side: 1, target, ..Position::start() };
    position.cells[0][0] = X;
    position
}

/// X's turn and free choice, with these boards at the front.
fn free(boards: &[[u8; 9]]) -> Position {
    let mut position = Position::start();
    position.cells[..boards.len()].copy_from_slice(boards);
    position
}

/// Refused by 22: X's move at 00 and free choice.
fn impossible() -> Vec<u8> {
    one_cell(FREE_CHOICE).write().to_vec()
}

fn refusal(position: Position) -> Option<u32> {
    record_refusal(&position.write())
}

#[test]
fn a_cell_taken_and_no_board_done() {
    assert_eq!(hex::show(&impossible()), format!("FA{}", "00".repeat(20)));
    assert_eq!(refusal(one_cell(FREE_CHOICE)), Some(22));
    for target in 0..9 {
        assert_eq!(refusal(one_cell(target)), None);
    }
    assert_eq!(refusal_to_6(&impossible()), None);
    // Eight boards that are each one cell short of drawn.
    let nearly = [DRAWN, DRAWN_TOO].map(|mut board| {
        board[0] = EMPTY;
        board
    });
    let mut many = free(&[nearly; 4].concat());
    assert_eq!((many.count(EMPTY), refusal(many)), (17, Some(22)));
    many.target = 8;
    assert_eq!(refusal(many), None);
}

#[test]
fn a_done_board_frees_the_choice() {
    assert_eq!(refusal(Position::start()), None);
    let won = free(&[
        [X, X, X, EMPTY, EMPTY, EMPTY, EMPTY, EMPTY, EMPTY],
        [O, O, EMPTY, EMPTY, O, EMPTY, EMPTY, EMPTY, EMPTY],
    ]);
    assert_eq!(refusal(won), None);
    let lost = free(&[
        [O, O, O, EMPTY, EMPTY, EMPTY, EMPTY, EMPTY, EMPTY],
        [X, X, EMPTY, EMPTY, X, EMPTY, EMPTY, EMPTY, EMPTY],
    ]);
    assert_eq!(refusal(lost), None);
    let drawn = Position { side: 1, ..free(&[DRAWN]) };
    assert_eq!((refusal(drawn), impossible_choice(&drawn)), (None, false));
    let mut in_play = drawn;
    (in_play.cells[0][8], in_play.cells[1][8]) = (EMPTY, X);
    assert_eq!(refusal(in_play), Some(22));
    assert_eq!(record_refusal(&hex::read(D).expect("hexadecimal")), None);
}

/// Of the checks ahead of it 2 and 3 can refuse such a record, too.
#[test]
fn checks_2_and_3_come_first() {
    let choice = one_cell(FREE_CHOICE);
    assert_eq!(refusal(Position { last_bit: 1, ..choice }), Some(2));
    assert_eq!(refusal(Position { side: 0, ..choice }), Some(3));
    let mut coded = Position::start();
    coded.cells[0][0] = 3;
    assert_eq!((refusal(coded), impossible_choice(&coded)), (Some(2), true));
    assert_eq!(record_refusal(&impossible()[..20]), Some(1));
}

#[test]
fn later_checks_come_after() {
    let record = impossible();
    assert_eq!(table::output_refusal(&record, 20, table::RECORD_ROOM), Some(22));
    assert_eq!(table::output_refusal(&record, 0, table::MOVES_ROOM), Some(22));
    assert_eq!(table::referee_refusal(&record, 3), Some(22));
    assert_eq!(table::referee_refusal(&record, 0), Some(22));
    for pool in [0, 1, LARGEST_POOL + 1] {
        let bad = Stay::margin(f64::NAN);
        assert_eq!(table::search_refusal(&record, 3, pool, u64::MAX, 0, bad), Some(22));
        assert_eq!(table::full_refusal(&record, pool, u64::MAX, 0, bad), Some(22));
    }
}

/// A book that holds such a record has its entry, and no call may name it.
#[test]
fn a_book_with_such_a_record() {
    let (record, off) = (impossible(), Stay::Off);
    let book = Book { bytes: entry(&record, 0, 1, 1), count: 1 };
    let broken = Book { count: 2, ..book.clone() };
    for book in [&book, &broken, &Book::empty(1)] {
        let add = |who| table::add_refusal(book, who, &record, 3, [0, u64::MAX, 0], Stay::margin(2.0));
        assert_eq!([Who::Arbiter, Who::Trainer].map(add), [Some(22), Some(19)]);
        assert_eq!([0, 3].map(|rule| table::lookup_refusal(book, &record, rule)), [Some(22); 2]);
        let publish = |who| table::publish_refusal(book, who, &record, 3);
        assert_eq!([Who::Arbiter, Who::Trainer].map(publish), [Some(22), Some(19)]);
    }
    let drawn = hex::read(D).expect("hexadecimal");
    assert_eq!(table::add_refusal(&book, Who::Arbiter, &drawn, 0, [1, 0, 1], off), Some(18));
    assert_eq!(table::lookup_refusal(&book, &drawn, 0), None);
}

/// Of all records 22 is the last check, then the lowest game counts.
#[test]
fn games() {
    let [w, done] = [W, DONE_TARGET].map(|digits| hex::read(digits).expect("hexadecimal"));
    let call = |records: &[&Vec<u8>]| {
        let records: Vec<u8> = records.iter().flat_map(|record| record.iter().copied()).collect();
        Games {
            records,
            rule: 3,
            pool: 0,
            limit: 0,
            allowance: 0,
            interval: 0,
            shares: [9; 8],
            stay: Stay::margin(2.0),
        }
    };
    let refusal = |records: &[&Vec<u8>]| games_refusal(&call(records));
    let choice = &impossible();
    assert_eq!(refusal(&[choice]), Some((22, 0)));
    assert_eq!(refusal(&[&w, choice, &w, choice]), Some((22, 1)));
    assert_eq!(refusal(&[&w, &w, &w, &w, &w, &w, &w, choice]), Some((22, 7)));
    assert_eq!(refusal(&[choice, &done]), Some((6, 1)));
    assert_eq!(refusal(&[&done, choice]), Some((6, 0)));
    assert_eq!(refusal(&[choice; 9]), Some((20, 0)));
    assert_eq!(games_refusal(&Games { records: vec![0xFA; 22], ..call(&[]) }), Some((1, 0)));
}
