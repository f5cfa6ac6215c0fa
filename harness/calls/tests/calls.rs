//! Lines, records and the table, on small inputs.

use calls::record::{Position, FREE_CHOICE, X};
use calls::{hex, line, table, Answer, Call, Kind, Stay};

#[test]
fn lines_are_read_and_printed() {
    for text in [
        "moves -",
        "moves 78 80",
        "replay 7800 4400",
        "replay - - 22",
        "search 00 0 1 18446744073709551615 3 4",
        "full 00 1 18446744073709551615 3 4",
        "referee 00 2",
        "sheets - -",
        "sheets 44 4440 20",
        "sheets 4440FF - 0",
    ] {
        assert_eq!(line::parse(text).expect(text).to_string(), text);
    }
    assert_eq!(line::parse(" moves  78\t81 \n"), Ok(Call::Moves { record: vec![0x78], output: 81 }));
    let sheets = Call::Sheets { first: vec![0x44], second: vec![], output: 21 };
    assert_eq!(line::parse("sheets 44 - 21"), Ok(sheets));
}

#[test]
fn an_opening_is_printed_as_its_count_and_record() {
    let record = Position::start().write().to_vec();
    let text = format!("0 78{}", "00".repeat(20));
    assert_eq!(Answer::Opening { count: 0, record }.to_string(), text);
}

#[test]
fn wrong_lines_are_told() {
    let wrong = [
        "",
        "move 00",
        "moves",
        "moves 0",
        "moves 0g",
        "moves 00 x",
        "moves 00 1 2",
        "moves 00 1000001",
        "replay 00",
        "search 00 0 1 2 3",
        "full 00 1 2 3",
        "full 00 0 1 2 3 4",
        "referee 00",
        "referee 00 0 1",
        "search 00 0 1 2 3 -4",
        "search 00 0 1 18446744073709551616 3 4",
        "sheets",
        "sheets 44",
        "sheets 44 4",
        "sheets 4g 44",
        "sheets 44 44 21 21",
        "sheets 44 44 1000001",
    ];
    for text in wrong {
        assert!(line::parse(text).is_err(), "{:?}", text);
    }
}

#[test]
fn a_line_of_too_few_words_is_told_what_its_call_takes() {
    for kind in Kind::ALL {
        let message = line::parse(kind.name()).expect_err("a call takes something");
        assert!(message.starts_with(&format!("{} takes ", kind.name())), "{:?}", message);
        assert_eq!(Kind::named(kind.name()), Some(kind));
    }
    let message = line::parse("sheets 44").expect_err("a call has two sheets");
    assert_eq!(message, "sheets takes FIRST SECOND [OUTPUT-LENGTH]");
    assert_eq!(Kind::named("sheet"), None);
}

#[test]
fn hexadecimal_goes_both_ways() {
    assert_eq!(hex::show(&[]), "-");
    assert_eq!(hex::read("-"), Some(vec![]));
    assert_eq!(hex::read("0aF0"), Some(vec![0x0a, 0xf0]));
    assert_eq!(hex::read(""), None);
}

#[test]
fn the_empty_game_has_the_manuals_bytes() {
    let record = Position::start().write();
    assert_eq!(record[0], 0x78);
    assert!(record[1..].iter().all(|b| *b == 0));
    assert_eq!(table::record_refusal(&record), None);
}

#[test]
fn records_are_read_bit_by_bit() {
    let mut record = [0; 21];
    record[20] = 0b0000_0111;
    let position = Position::read(&record);
    assert_eq!((position.cells[8][8], position.cells[8][7], position.last_bit), (3, 0, 1));
    assert_eq!(position.write(), record);
}

#[test]
fn the_first_check_answers() {
    let start = Position::start();
    let refusal = |position: Position| table::record_refusal(&position.write());
    assert_eq!(table::record_refusal(&[0x78; 20]), Some(1));
    assert_eq!(refusal(Position { target: 9, side: 1, ..start }), Some(2));
    assert_eq!(refusal(Position { side: 1, ..start }), Some(3));
    let mut one = Position { target: 3, ..start };
    one.cells[0][0] = X;
    assert_eq!(refusal(one), Some(3));
    assert_eq!(refusal(Position { side: 1, ..one }), None);
    assert_eq!(refusal(Position { side: 1, target: FREE_CHOICE, last_bit: 1, ..one }), Some(2));
}

#[test]
fn settings_are_checked_in_order() {
    let record = Position::start().write();
    let refusal =
        |rule, pool, budget, interval| table::search_refusal(&record, rule, pool, budget, interval, Stay::Off);
    let full_refusal = |pool, budget, interval| table::full_refusal(&record, pool, budget, interval, Stay::Off);
    assert_eq!(refusal(3, 0, 0, 0), Some(8));
    assert_eq!(refusal(3, 16_777_217, 0, 0), Some(9));
    assert_eq!(refusal(3, 16_777_216, 0, 1), Some(10));
    assert_eq!([3_000_001, 1_000_000_000_000, u64::MAX].map(|budget| refusal(2, 1, budget, 1)), [Some(10); 3]);
    assert_eq!(refusal(2, 1, 3_000_000, 1_000_001), Some(10));
    assert_eq!(refusal(2, 1, 3_000_000, 1_000_000), None);
    assert_eq!(full_refusal(0, 0, 0), Some(8));
    assert_eq!(full_refusal(16_777_217, 0, 0), Some(9));
    assert_eq!(full_refusal(16_777_216, 0, 0), Some(10));
    assert_eq!(full_refusal(1, 3_000_000, 1_000_000), None);
    assert_eq!(full_refusal(1, 3_000_001, 1_000_000), Some(10));
    assert_eq!(table::referee_refusal(&record, 3), Some(10));
    assert_eq!(table::referee_refusal(&record, 2), Some(16));
    assert_eq!(table::output_refusal(&record, 20, table::RECORD_ROOM), Some(7));
    assert_eq!(table::output_refusal(&record, 80, table::MOVES_ROOM), Some(7));
    assert_eq!(
        [0, 20, 21, 22].map(|output| table::room_refusal(output, table::RECORD_ROOM)),
        [Some(7), Some(7), None, None]
    );
}
