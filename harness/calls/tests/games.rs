//! Games that are judged together: their lines and their refusals, on small inputs.

use calls::line::{self, Fields, Verdict};
use calls::record::X;
use calls::table::{games_refusal, LARGEST_BUDGET, LARGEST_INTERVAL, LARGEST_POOL};
use calls::{Answer, Call, Games, Position, Stay};

fn start() -> Vec<u8> {
    Position::start().write().to_vec()
}

/// The empty game with an X and X to move: check 3.
fn miscounted() -> Vec<u8> {
    let mut position = Position::start();
    position.cells[4][4] = X;
    position.write().to_vec()
}

/// A target that names no board: check 2.
fn miscoded() -> Vec<u8> {
    Position { target: 9, ..Position::start() }.write().to_vec()
}

/// A call of these records that no check refuses, if none of them is refused and there are one to eight.
fn call(records: &[Vec<u8>]) -> Games {
    let (records, stay) = (records.concat(), Stay::Off);
    Games { records, rule: 0, pool: 80, limit: 0, allowance: 36, interval: 1, shares: [3; 8], stay }
}

fn refusal(records: &[Vec<u8>]) -> Option<(u32, u64)> {
    games_refusal(&call(records))
}

#[test]
fn lines_are_read_and_printed() {
    for text in [
        "eight - 0 0 0 0 0 0,0,0,0,0,0,0,0",
        "eight 00 3 1 18446744073709551615 2 4 1,2,3,4,5,6,7,8",
        "eight 0102 18446744073709551615 1 2 3 4 18446744073709551615,0,3000001,1,2,3,4,18446744073709551615",
    ] {
        assert_eq!(line::parse(text).expect(text).to_string(), text);
    }
    let shares = [1, 2, 3, 4, 5, 6, 7, u64::MAX];
    let (records, stay) = (vec![0x78, 0], Stay::Off);
    let games = Games { records, rule: 1, pool: 2, limit: 3, allowance: 4, interval: 5, shares, stay };
    assert_eq!(line::parse("eight 7800 1 2 3 4 5 1,2,3,4,5,6,7,18446744073709551615"), Ok(Call::Games(games)));
}

#[test]
fn there_are_eight_shares() {
    let read = |shares: &str| line::parse(&format!("eight - 0 0 0 0 0 {}", shares));
    assert!(read("0,0,0,0,0,0,0,0").is_ok());
    assert_eq!(read("1,2,3,4,5,6,7"), Err("there are 8 shares, not 7".to_string()));
    assert_eq!(read("1,2,3,4,5,6,7,8,9"), Err("there are 8 shares, not 9".to_string()));
    assert_eq!(read("1,2,3,4,5,6,7,x"), Err("share: \"x\" is not a number of 64 bits".to_string()));
    let wrong = [
        "",
        "1",
        "1 2 3 4 5 6 7 8",
        "1, 2, 3, 4, 5, 6, 7, 8",
        "1,2,3,4,5,6,7, 8",
        "1,2,3,4,5,6,7,",
        ",1,2,3,4,5,6,7",
        "1,2,3,,5,6,7,8",
        "1,2,3,4,5,6,7,8,",
        "1,2,3,4,5,6,7,-8",
        "1,2,3,4,5,6,7,0x8",
        "1,2,3,4,5,6,7,8.0",
        "1,2,3,4,5,6,7,18446744073709551616",
        "1;2;3;4;5;6;7;8",
        "1,2,3,4,5,6,7,8 0",
    ];
    for shares in wrong {
        assert!(read(shares).is_err(), "{:?}", shares);
    }
}

#[test]
fn other_words_are_told() {
    for text in
        ["eight 0 0 0 0 0 0 1,2,3,4,5,6,7,8", "eight - 0 0 0 0 1,2,3,4,5,6,7,8", "eight - 0 0 0 0 -1 1,2,3,4,5,6,7,8"]
    {
        assert!(line::parse(text).is_err(), "{:?}", text);
    }
    let message = line::parse("eight -").expect_err("more words come");
    assert_eq!(
        message,
        "eight takes RECORDS RULE POOL-NODES LIMIT ALLOWANCE INTERVAL S1,S2,S3,S4,S5,S6,S7,S8 [MARGIN]"
    );
}

#[test]
fn results_are_printed_with_bars_between() {
    let one = Fields {
        verdict: Verdict::Unknown,
        proof: 1,
        disproof: 2,
        allocated: 3,
        freed: 4,
        proved: 5,
        disproved: 6,
        expanded: 7,
        cause: 1,
    };
    let other = Fields { verdict: Verdict::True, proof: 0, cause: 0, ..one };
    assert_eq!(Answer::Games(vec![one]).to_string(), "Unknown 1 2 3 4 5 6 7 1");
    assert_eq!(Answer::Games(vec![one, other]).to_string(), "Unknown 1 2 3 4 5 6 7 1 | True 0 2 3 4 5 6 7 0");
}

/// One length or another, then the number of games, then the records.
#[test]
fn lengths_and_numbers_come_before_records() {
    assert_eq!(refusal(&[]), Some((20, 0)));
    assert_eq!([1, 2, 8].map(|games| refusal(&vec![start(); games])), [None; 3]);
    assert_eq!([9, 10].map(|games| refusal(&vec![start(); games])), [Some((20, 0)); 2]);
    assert_eq!(refusal(&vec![miscoded(); 9]), Some((20, 0)));
    for length in [1, 20, 22, 41, 167, 169, 190] {
        let records = [miscoded(), vec![0xFF; 200]].concat()[..length].to_vec();
        assert_eq!(refusal(&[records]), Some((1, 0)), "{} bytes", length);
    }
}

/// The earliest check of any record, then the lowest game that it refuses.
#[test]
fn a_refused_record_is_named_by_its_game() {
    assert_eq!(refusal(&[miscounted()]), Some((3, 0)));
    assert_eq!(refusal(&[start(), miscounted(), start()]), Some((3, 1)));
    assert_eq!(refusal(&[start(), miscounted(), miscoded()]), Some((2, 2)));
    assert_eq!(refusal(&[start(), miscoded(), miscounted(), miscoded()]), Some((2, 1)));
    let last = [vec![start(); 7], vec![miscounted()]].concat();
    assert_eq!(refusal(&last), Some((3, 7)));
    assert_eq!(games_refusal(&Games { rule: 3, pool: 0, interval: 0, ..call(&last) }), Some((3, 7)));
}

/// Check 8 goes by a part of the pool, 9 by all of it.
#[test]
fn a_part_has_a_node_and_the_whole_pool_is_not_too_large() {
    let with = |games, pool| games_refusal(&Games { pool, ..call(&vec![start(); games]) });
    assert_eq!([0, 1].map(|pool| with(1, pool)), [Some((8, 0)), None]);
    assert_eq!([0, 7, 8].map(|pool| with(8, pool)), [Some((8, 0)), Some((8, 0)), None]);
    for games in [1, 2, 8] {
        assert_eq!([LARGEST_POOL, LARGEST_POOL + 1].map(|pool| with(games, pool)), [None, Some((9, 0))]);
    }
    assert_eq!(games_refusal(&Games { rule: 3, pool: 0, ..call(&[start()]) }), Some((8, 0)));
    assert_eq!(games_refusal(&Games { rule: 3, pool: u64::MAX, ..call(&[start()]) }), Some((9, 0)));
}

/// Check 10 and then the sum; shares past the games are read by neither.
#[test]
fn shares_of_the_games_are_checked() {
    let most = LARGEST_BUDGET;
    let with = |games, shares: &[u64], allowance| {
        let mut all = [u64::MAX; 8];
        all[..shares.len()].copy_from_slice(shares);
        games_refusal(&Games { allowance, shares: all, ..call(&vec![start(); games]) })
    };
    assert_eq!(with(2, &[5, 6], 11), None);
    assert_eq!(with(2, &[5, 6], 10), Some((20, 0)));
    assert_eq!(with(2, &[0, 0], 0), None);
    assert_eq!(with(2, &[0, 1], 0), Some((20, 0)));
    assert_eq!(with(2, &[0], most), Some((10, 0)));
    assert_eq!(with(2, &[0, most + 1], 0), Some((10, 0)));
    assert_eq!(with(2, &[0, most], 0), Some((20, 0)));
    assert_eq!(with(2, &[0, most], most), None);
    assert_eq!(with(2, &[1, most], most), Some((20, 0)));
    assert_eq!(with(2, &[0, 0], most + 1), Some((10, 0)));
    assert_eq!(with(8, &[most; 8], most), Some((20, 0)));
    assert_eq!(with(8, &[1 << 63; 8], 0), Some((10, 0)));
    let other = |rule, interval| games_refusal(&Games { rule, interval, allowance: 0, ..call(&[start()]) });
    assert_eq!([other(3, 1), other(0, 0), other(0, LARGEST_INTERVAL + 1)], [Some((10, 0)); 3]);
    assert_eq!(other(2, LARGEST_INTERVAL), Some((20, 0)));
}
