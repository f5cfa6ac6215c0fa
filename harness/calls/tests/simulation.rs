//! Simulated players: their lines and their refusals, on small inputs.

use calls::table::{simulate_refusal, LARGEST_BUDGET, LARGEST_INTERVAL, LARGEST_POOL};
use calls::{hex, line, Answer, Call, Position, Report, Simulation, Stay};

/// Drawn and won games of MANUAL, Positions to try.
const DRAWN: &str = "FAB400A80054001500054000A8002A000A80054000";
const WON: &str = "FAA000A8002A001500054001400000000000000000";

/// A call that no check refuses.
fn taken() -> Simulation {
    let (record, stay) = (Position::start().write().to_vec(), Stay::Off);
    Simulation { record, seed: 0, games: 1, pool: 1, limit: 0, interval: 1, budgets: [0; 2], stay }
}

#[test]
fn lines_are_read_and_printed() {
    for text in [
        "sim - 0 0 0 0 0 0 0",
        "sim 00 18446744073709551615 1001 1 18446744073709551615 3 4 5",
        "sim 0102 1 2 3 4 5 3000001 18446744073709551615 3FF0000000000000",
    ] {
        assert_eq!(line::parse(text).expect(text).to_string(), text);
    }
    let (record, stay) = (vec![0x78, 0], Stay::margin(0.5));
    let call = Simulation { record, seed: 1, games: 2, pool: 3, limit: 4, interval: 5, budgets: [6, 7], stay };
    assert_eq!(line::parse("sim 7800 1 2 3 4 5 6 7 3FE0000000000000"), Ok(Call::Simulate(call)));
}

#[test]
fn wrong_lines_are_told() {
    let wrong = [
        "sim",
        "sim 00 1 2 3 4 5 6",
        "sim 0 1 2 3 4 5 6 7",
        "sim 00 x 2 3 4 5 6 7",
        "sim 00 0A 2 3 4 5 6 7",
        "sim 00 -1 2 3 4 5 6 7",
        "sim 00 18446744073709551616 2 3 4 5 6 7",
        "sim 00 1 2 3 4 5 6,7",
        "sim 00 1 2 3 4 5 6 7 8",
        "sim 00 1 2 3 4 5 6 7 off off",
    ];
    for text in wrong {
        assert!(line::parse(text).is_err(), "{:?}", text);
    }
    let message = line::parse("sim 00 1 2 3 4 5 6 x").expect_err("no number");
    assert_eq!(message, "O's budget: \"x\" is not a number of 64 bits");
    let message = line::parse("sim 00").expect_err("too few words");
    assert_eq!(message, "sim takes RECORD SEED GAMES POOL-NODES LIMIT INTERVAL X-BUDGET O-BUDGET [MARGIN]");
}

#[test]
fn a_report_is_printed_as_its_four_numbers() {
    let report = Report { x_wins: 1, o_wins: 2, draws: 3, expanded: u64::MAX };
    assert_eq!(Answer::Simulated(report).to_string(), "1 2 3 18446744073709551615");
}

#[test]
fn there_are_one_to_a_thousand_games() {
    let with = |games| simulate_refusal(&Simulation { games, ..taken() });
    assert_eq!([1, 2, 999, 1_000].map(with), [None; 4]);
    assert_eq!([0, 1_001, 1 << 32, (1 << 32) + 1, u64::MAX].map(with), [Some(23); 5]);
}

/// Of finished games, too.
#[test]
fn both_budgets_and_the_interval_are_checked() {
    for record in [taken().record, hex::read(DRAWN).expect("hexadecimal"), hex::read(WON).expect("hexadecimal")] {
        let taken = || Simulation { record: record.clone(), games: 1_000, ..taken() };
        let (most, over) = (LARGEST_BUDGET, LARGEST_BUDGET + 1);
        let with = |budgets| simulate_refusal(&Simulation { budgets, ..taken() });
        assert_eq!([[most, most], [0, most], [most, 0]].map(with), [None; 3]);
        assert_eq!([[over, 0], [0, over], [over, over], [0, 1 << 32], [u64::MAX, 0]].map(with), [Some(10); 5]);
        let with = |interval| simulate_refusal(&Simulation { interval, ..taken() });
        assert_eq!([0, 1, LARGEST_INTERVAL, LARGEST_INTERVAL + 1].map(with), [Some(10), None, None, Some(10)]);
        let with = |seed| simulate_refusal(&Simulation { seed, ..taken() });
        assert_eq!([0, 1 << 63, u64::MAX].map(with), [None; 3]);
    }
}

/// Each refusal with all that come after it refusing too.
#[test]
fn checks_stand_in_the_order_of_the_table() {
    let mut call = Simulation {
        record: vec![0xFA; 20],
        games: 0,
        pool: 0,
        interval: 0,
        budgets: [u64::MAX; 2],
        stay: Stay::margin(2.0),
        ..taken()
    };
    let mut after = |change: fn(&mut Simulation)| {
        change(&mut call);
        simulate_refusal(&call)
    };
    assert_eq!(after(|_| ()), Some(1));
    assert_eq!(after(|call| call.record = hex::read(&format!("FA{}", "00".repeat(20))).expect("hex")), Some(22));
    assert_eq!(after(|call| call.record = taken().record), Some(8));
    assert_eq!(after(|call| call.pool = LARGEST_POOL + 1), Some(9));
    assert_eq!(after(|call| call.pool = LARGEST_POOL), Some(10));
    assert_eq!(after(|call| call.interval = 1), Some(10));
    assert_eq!(after(|call| call.budgets[0] = 0), Some(10));
    assert_eq!(after(|call| call.budgets[1] = 0), Some(21));
    assert_eq!(after(|call| call.stay = Stay::margin(1.0)), Some(23));
    assert_eq!(after(|call| call.games = 1), None);
}
