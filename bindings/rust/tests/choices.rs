//! Free choice where it can't be, with a cell taken and no board done, and where it can, in every call that takes a
//! record.

mod common;

use common::book::{entry, found, published, seen, used, FALSE, FILL, TRUE};
use common::games::shared;
use common::{budget, budgets, d, ffi, pool, record, w, E, FREE_CHOICE};
use ultimattt::Caller::{Arbiter, Trainer};
use ultimattt::{full_verdict, judge_games, legal_moves, legal_moves_into, referee, replay, replay_into};
use ultimattt::{search, simulate};
use ultimattt::{Book, Pool, Record, Refusal, Rule, Settings, Stay, Verdict, BUDGET_MOST};

/// Nine boards in play with one empty cell each.
const NINE: &str = "792D4A34AD12D4A34AD12D4A34AD12D4A34AD12D4A";
/// The same with board 0 full, which is drawn.
const ONE_DRAWN: &str = "FB2D4A34AD12D4A34AD12D4A34AD12D4A34AD12D4A";

/// X's first move at 00, and this target.
fn one_cell(target: u8) -> Record {
    let mut record = [0; 21];
    record[0] = 0x82 | target << 3;
    record
}

/// Free choice with one cell, two, eight of one board, and eight of each taken.
fn impossible() -> [Record; 4] {
    let two = record("780000000000000000040200000000000000000000");
    [one_cell(FREE_CHOICE), two, record("7B2D48000000000000000000000000000000000000"), record(NINE)]
}

/// Free choice as it can be: the empty game, one board done, which X or O has won or which is drawn, and a finished game.
fn free() -> [Record; 6] {
    let won = ["FAA001000040000000000000000000000000000000", "7D4000A08000000000000000000000000000000000"].map(record);
    let drawn = record("FB2D4A000000000000000000000000000000000000");
    [E, won[0], won[1], drawn, record(ONE_DRAWN), d(FREE_CHOICE)]
}

/// The record with another target.
fn with_target(mut record: Record, target: u8) -> Record {
    record[0] = record[0] & 0x87 | target << 3;
    record
}

/// Settings of which every one is refused.
fn all_wrong() -> Settings {
    Settings { interval: 0, stay: Stay::Margin(f64::NAN), ..budget(BUDGET_MOST + 1) }
}

#[test]
fn replays() {
    for record in impossible() {
        assert_eq!(replay(&record, &[]), Err(Refusal::ImpossibleChoice));
        assert_eq!(replay(&record, &[0xFF]), Err(Refusal::ImpossibleChoice));
        let mut output = [FILL; 21];
        for room in [0, 20, 21] {
            assert_eq!(replay_into(&record, &[], &mut output[..room]), Err(Refusal::ImpossibleChoice));
        }
        assert_eq!(output, [FILL; 21]);
        for target in 0..9 {
            let named = with_target(record, target);
            assert_eq!(replay(&named, &[]), Ok(named));
        }
    }
    for record in free() {
        assert_eq!(replay(&record, &[]), Ok(record));
    }
    assert_eq!(replay(&E, &[0x00]), Ok(one_cell(0)));
}

/// One X too many and X to move, or a last bit of 1, comes first.
#[test]
fn checks_that_come_first() {
    let [mut counts, mut last_bit] = [one_cell(FREE_CHOICE); 2];
    (counts[0], last_bit[20]) = (0x7A, 1);
    assert_eq!(replay(&counts, &[]), Err(Refusal::CellCounts));
    assert_eq!(replay(&last_bit, &[]), Err(Refusal::RecordBits));
    assert_eq!(replay(&one_cell(FREE_CHOICE)[..20], &[]), Err(Refusal::RecordLength));
}

#[test]
fn moves() {
    for record in impossible() {
        assert_eq!(legal_moves(&record), Err(Refusal::ImpossibleChoice));
        assert_eq!(legal_moves_into(&record, &mut []), Err(Refusal::ImpossibleChoice));
        assert!(legal_moves(&with_target(record, 8)).is_ok_and(|moves| moves.iter().all(|m| m >> 4 == 8)));
    }
    assert_eq!(free().map(|record| legal_moves(&record).map_or(0, |moves| moves.len())), [81, 70, 69, 72, 8, 0]);
}

#[test]
fn searches() {
    let none = || Pool::from_words(vec![]);
    for record in impossible() {
        for (mut words, settings) in [(pool(90), budget(1)), (none(), budget(1)), (pool(90), all_wrong())] {
            let before = words.words().to_vec();
            let searched = search(&record, &mut words, Rule::DrawFalse, &settings).err();
            let judged = full_verdict(&record, &mut words, &settings).err();
            assert_eq!([searched, judged], [Some(Refusal::ImpossibleChoice); 2]);
            assert_eq!(words.into_words(), before);
        }
    }
    for record in free() {
        assert!(search(&record, &mut pool(90), Rule::DrawFalse, &budget(1)).is_ok());
        assert!(full_verdict(&record, &mut pool(90), &budget(1)).is_ok());
        assert_eq!(search(&record, &mut none(), Rule::DrawFalse, &all_wrong()), Err(Refusal::PoolEmpty));
    }
}

/// Nine empty cells are not too many for the referee.
#[test]
fn referees() {
    for record in impossible() {
        assert_eq!(referee(&record, Rule::DrawFalse), Err(Refusal::ImpossibleChoice));
        // SAFETY: the record has 21 bytes.
        assert_eq!(unsafe { ffi::uttt_referee(record.as_ptr(), 21, 3) }.code, 22);
    }
    assert!((0..9).all(|target| referee(&with_target(record(NINE), target), Rule::DrawFalse).is_ok()));
    assert!(referee(&record(ONE_DRAWN), Rule::DrawFalse).is_ok());
    assert_eq!(referee(&one_cell(0), Rule::DrawFalse), Err(Refusal::TooManyEmpty));
}

/// Whatever the book is, no call may name such a record; a trainer who writes is told that first.
#[test]
fn books() {
    for record in impossible() {
        let held = [published(&record, Rule::DrawFalse, TRUE), entry(&w(), Rule::DrawFalse, FALSE)];
        for book in [used(&held), Book::new(1), Book::new(0), Book::from_bytes(vec![FILL; 23], 7)] {
            let mut after = book.clone();
            for who in [Arbiter, Trainer] {
                assert_eq!(after.lookup(who, &record, Rule::DrawFalse), Err(Refusal::ImpossibleChoice));
            }
            for (mut words, settings) in [(pool(90), budget(1)), (Pool::from_words(vec![]), all_wrong())] {
                let mut add = |who| after.add(who, &record, &mut words, Rule::DrawFalse, &settings);
                assert_eq!(add(Arbiter), Err(Refusal::ImpossibleChoice));
                assert_eq!(add(Trainer), Err(Refusal::TrainerWrites));
            }
            assert_eq!(after.publish(Arbiter, &record, Rule::DrawFalse), Err(Refusal::ImpossibleChoice));
            assert_eq!(after.publish(Trainer, &record, Rule::DrawFalse), Err(Refusal::TrainerWrites));
            assert_eq!((after.bytes(), after.count()), (book.bytes(), book.count()));
        }
    }
}

/// Its entry counts as used, and those after it are found.
#[test]
fn entries_of_such_records() {
    let [first, .., last] = impossible();
    let drawn = d(FREE_CHOICE);
    let pairs = [
        published(&first, Rule::DrawFalse, TRUE),
        published(&w(), Rule::DrawFalse, TRUE),
        entry(&last, Rule::DrawFalse, 0),
    ];
    let mut book = used(&pairs);
    let add = |book: &mut Book| book.add(Arbiter, &drawn, &mut pool(1), Rule::DrawFalse, &budget(0));
    assert_eq!(add(&mut book), Err(Refusal::BookFull));
    assert_eq!((found(&book, &w(), Rule::DrawFalse), seen(&book, &w(), Rule::DrawFalse)), (Some(true), Some(true)));
    book.grow(1);
    assert_eq!(add(&mut book), Ok(Verdict::False));
    assert_eq!(book.count(), 4);
    assert_eq!(book.bytes(), [&pairs[..], &[entry(&drawn, Rule::DrawFalse, FALSE)]].concat().concat());
}

/// Of all records 22 is the last check, and ahead of pool, settings and shares; then the lowest game counts.
#[test]
fn games() {
    let judged = |records: &[Record]| {
        let settings = shared(1, &[BUDGET_MOST + 1; 8]);
        judge_games(&records.concat(), &mut Pool::from_words(vec![]), Rule::DrawFalse, &settings)
    };
    let in_game = |at| Err(Refusal::InGame(at, &Refusal::ImpossibleChoice));
    for record in impossible() {
        assert_eq!(judged(&[record]), in_game(0));
        assert_eq!(judged(&[w(), record, E, record]), in_game(1));
        assert_eq!(judged(&[w(), w(), w(), w(), w(), w(), w(), record]), in_game(7));
        assert_eq!(judged(&[record, d(0)]), Err(Refusal::InGame(1, &Refusal::TargetDone)));
        assert_eq!(judged(&[record; 9]), Err(Refusal::GameCount));
    }
    let told = judged(&[w(), one_cell(FREE_CHOICE)]).unwrap_err();
    assert_eq!((told.number(), told.index()), (22, Some(1)));
    assert_eq!(told.to_string(), "the game at index 1: free choice, though no board is done");
    let results = judge_games(&free().concat(), &mut pool(600), Rule::DrawFalse, &shared(6, &[1; 6]));
    assert_eq!(results.map(|results| results.len()), Ok(6));
}

/// Ahead of pool, budgets and number of games.
#[test]
fn simulations() {
    let over = budgets(BUDGET_MOST + 1, BUDGET_MOST + 1);
    for record in impossible() {
        assert_eq!(simulate(&record, &mut pool(90), 1, 1, &budgets(1, 1)), Err(Refusal::ImpossibleChoice));
        let all_wrong = simulate(&record, &mut Pool::from_words(vec![]), 1, 0, &over);
        assert_eq!(all_wrong, Err(Refusal::ImpossibleChoice));
        assert!(simulate(&with_target(record, 8), &mut pool(90), 1, 1, &budgets(1, 1)).is_ok());
    }
    assert!(free().iter().all(|record| simulate(record, &mut pool(90), 1, 1, &budgets(1, 1)).is_ok()));
}
