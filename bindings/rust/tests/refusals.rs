//! Each refusal of the table (MANUAL, Turned back), with its number, its index and its words.

mod common;

use common::games::shared;
use common::{budgets, d, pool, refused_records, w, x_to_move, E, FREE_CHOICE, O, X};
use ultimattt::Caller::{Arbiter, Trainer};
use ultimattt::{
    agreed_opening_into, full_verdict, judge_games, legal_moves_into, referee, replay, replay_into, search, simulate,
};
use ultimattt::{Book, GamesSettings, PlayersSettings, Pool, Refusal, Rule, Settings, Stay};
use ultimattt::{BUDGET_MOST, INTERVAL_MOST, NODE_WORDS, POOL_MOST, SIMULATED_MOST};

/// Words for a lone call and for games.
const NOT_21_BYTES: &str = "the record is not 21 bytes long (games: the records are not 21 bytes each)";
const NO_NODE: &str = "the pool has no room for a node, which takes five words (games: for one each)";

fn refused<T: std::fmt::Debug>(answer: Result<T, Refusal>, refusal: Refusal, number: u32, words: &str) {
    let found = answer.expect_err("a refusal");
    assert_eq!(found, refusal);
    assert_eq!(found.number(), number);
    assert_eq!(found.to_string(), words);
}

fn searched(words: usize, settings: Settings) -> Result<String, Refusal> {
    let answer = search(&E, &mut Pool::from_words(vec![0; words]), Rule::DrawFalse, &settings);
    let full = full_verdict(&E, &mut Pool::from_words(vec![0; words]), &settings);
    assert_eq!(answer.err(), full.err(), "search and full verdict have the same checks");
    answer.map(|result| result.to_string())
}

#[test]
fn records() {
    refused(replay(&E[..20], &[]), Refusal::RecordLength, 1, NOT_21_BYTES);
    refused(replay(&[], &[]), Refusal::RecordLength, 1, NOT_21_BYTES);
    let bits = "the record has a cell of code 3, a target of 9 to 14, or a last bit of 1";
    refused(replay(&x_to_move(FREE_CHOICE, &[(&[0], &[0], 3)]), &[]), Refusal::RecordBits, 2, bits);
    refused(replay(&x_to_move(9, &[]), &[]), Refusal::RecordBits, 2, bits);
    let mut last_bit = E;
    last_bit[20] = 1;
    refused(replay(&last_bit, &[]), Refusal::RecordBits, 2, bits);
    let counts = "the numbers of X's and O's cells don't go with the side to move";
    refused(replay(&x_to_move(FREE_CHOICE, &[(&[0], &[0], X)]), &[]), Refusal::CellCounts, 3, counts);
    let twice = x_to_move(FREE_CHOICE, &[(&[0], &[0, 1, 2], X), (&[0], &[3, 4, 5], O)]);
    refused(replay(&twice, &[]), Refusal::BoardWonTwice, 4, "a board has a line of X and a line of O");
    let won = x_to_move(FREE_CHOICE, &[(&[0, 1, 2], &[0, 1, 2], X), (&[3, 4, 5], &[0, 1, 3], O)]);
    let words = "both sides have a line of boards, or the side to move has one";
    refused(replay(&won, &[]), Refusal::GameWonWrongly, 5, words);
    refused(replay(&d(0), &[]), Refusal::TargetDone, 6, "the target is a board that is won or drawn");
    let choice = x_to_move(FREE_CHOICE, &[(&[0], &[0], X), (&[0], &[1], O)]);
    refused(replay(&choice, &[]), Refusal::ImpossibleChoice, 22, "free choice, though no board is done");
}

#[test]
fn outputs() {
    let words = "the output is too short: a record takes 21 bytes, moves take 81";
    refused(replay_into(&E, &[], &mut [0; 20]), Refusal::OutputShort, 7, words);
    refused(replay_into(&E, &[], &mut []), Refusal::OutputShort, 7, words);
    refused(legal_moves_into(&E, &mut [0; 80]), Refusal::OutputShort, 7, words);
    refused(agreed_opening_into(&[], &[], &mut []), Refusal::OutputShort, 7, words);
    refused(agreed_opening_into(&[0x44], &[0x44], &mut [0; 20]), Refusal::OutputShort, 7, words);
    assert_eq!(agreed_opening_into(&[0x44], &[0x44], &mut [0; 21]), Ok(&[0x44][..]));
}

#[test]
fn pools() {
    refused(Pool::new(0), Refusal::PoolEmpty, 8, NO_NODE);
    refused(searched(0, Settings::default()), Refusal::PoolEmpty, 8, NO_NODE);
    refused(searched(NODE_WORDS - 1, Settings::default()), Refusal::PoolEmpty, 8, NO_NODE);
    let large = "the pool has more than 16,777,216 nodes";
    refused(Pool::new(POOL_MOST + 1), Refusal::PoolTooLarge, 9, large);
    refused(searched((POOL_MOST + 1) * NODE_WORDS, Settings::default()), Refusal::PoolTooLarge, 9, large);
    assert_eq!(pool(POOL_MOST).nodes(), POOL_MOST);
}

#[test]
fn settings() {
    let words =
        "the rule is over 2, the interval is not 1 to 1,000,000, or a budget, a share or the allowance is over \
                 3,000,000";
    let usual = Settings::default();
    for interval in [0, INTERVAL_MOST + 1] {
        refused(searched(30, Settings { interval, ..usual }), Refusal::SettingRange, 10, words);
    }
    refused(searched(30, Settings { budget: BUDGET_MOST + 1, ..usual }), Refusal::SettingRange, 10, words);
    for budgets in [budgets(BUDGET_MOST + 1, 0), budgets(0, BUDGET_MOST + 1)] {
        refused(simulate(&w(), &mut pool(6), 0, 1, &budgets), Refusal::SettingRange, 10, words);
    }
    for interval in [1, INTERVAL_MOST] {
        assert!(searched(30, Settings { interval, budget: BUDGET_MOST, limit: 0, ..usual }).is_ok());
    }
}

#[test]
fn moves() {
    let bounds = "the move at index 0: its board or its cell is not 0 to 8";
    refused(replay(&E, &[0x09]), Refusal::OutOfBounds(0), 11, bounds);
    let over = "the move at index 0: the game is over";
    refused(replay(&d(FREE_CHOICE), &[0x88]), Refusal::GameOver(0), 12, over);
    let won = "the move at index 0: its board is won or drawn";
    refused(replay(&w(), &[0x05]), Refusal::WonBoard(0), 13, won);
    let wrong = "the move at index 1: its board is not the target";
    refused(replay(&E, &[0x44, 0x00]), Refusal::WrongBoard(1), 14, wrong);
    let taken = "the move at index 2: its cell is taken";
    refused(replay(&E, &[0x40, 0x04, 0x40, 0x00]), Refusal::NotEmpty(2), 15, taken);
}

#[test]
fn endings() {
    let words = "boards in play have over nine empty cells, too many for the referee";
    refused(referee(&E, Rule::DrawFalse), Refusal::TooManyEmpty, 16, words);
}

#[test]
fn books() {
    let words = "the book's length is not a multiple of 22 bytes, or its count is above its entries";
    let (usual, mut any) = (Settings::default(), pool(1));
    for (length, count) in [(23, 0), (22, 2), (0, 1)] {
        let mut book = Book::from_bytes(vec![0; length], count);
        refused(book.lookup(Arbiter, &E, Rule::DrawFalse), Refusal::BookSize, 17, words);
        refused(book.lookup(Trainer, &E, Rule::DrawFalse), Refusal::BookSize, 17, words);
        refused(book.add(Arbiter, &E, &mut any, Rule::DrawFalse, &usual), Refusal::BookSize, 17, words);
        refused(book.publish(Arbiter, &E, Rule::DrawFalse), Refusal::BookSize, 17, words);
    }
    let full = "the book is full and does not hold the pair";
    refused(Book::new(0).add(Arbiter, &E, &mut any, Rule::DrawFalse, &usual), Refusal::BookFull, 18, full);
}

#[test]
fn trainers() {
    let words = "trainers may look up, but not add or publish";
    let (mut book, usual) = (Book::new(1), Settings::default());
    refused(book.add(Trainer, &w(), &mut pool(50), Rule::DrawFalse, &usual), Refusal::TrainerWrites, 19, words);
    refused(book.publish(Trainer, &w(), Rule::DrawFalse), Refusal::TrainerWrites, 19, words);
    assert_eq!(book.lookup(Trainer, &w(), Rule::DrawFalse), Ok(None));
}

#[test]
fn games() {
    let settings = shared(7, &[4; 8]);
    let judged = |records: &[u8], nodes| judge_games(records, &mut pool(nodes), Rule::DrawFalse, &settings);
    refused(judged(&[0; 43], 90), Refusal::RecordLength, 1, NOT_21_BYTES);
    let count = "there is no game to judge, or there are over eight";
    refused(judged(&[], 90), Refusal::GameCount, 20, count);
    refused(judged(&[w(); 9].concat(), 90), Refusal::GameCount, 20, count);
    let shares = "the shares of the games sum above the allowance";
    refused(judged(&[w(); 2].concat(), 90), Refusal::SharesOverAllowance, 20, shares);
    refused(judged(&[w(); 3].concat(), 2), Refusal::PoolEmpty, 8, NO_NODE);
    for (record, _) in &refused_records()[1..] {
        let fault = replay(record, &[]).unwrap_err();
        let found = judged(&[&w(), &E, &record[..]].concat(), 90).unwrap_err();
        assert_eq!((found.number(), found.index()), (fault.number(), Some(2)));
        assert_eq!(found.to_string(), format!("the game at index 2: {fault}"));
    }
}

#[test]
fn margins() {
    let words = "the margin is not a whole multiple of 1/256 from 0 to 1";
    let bad = Stay::Margin(f64::NAN);
    refused(searched(30, Settings { stay: bad, ..Settings::default() }), Refusal::Margin, 21, words);
    let settings = GamesSettings { stay: bad, ..shared(7, &[4]) };
    refused(judge_games(&w(), &mut pool(90), Rule::DrawFalse, &settings), Refusal::Margin, 21, words);
    let settings = Settings { stay: bad, ..Settings::default() };
    refused(Book::new(1).add(Arbiter, &w(), &mut pool(9), Rule::DrawFalse, &settings), Refusal::Margin, 21, words);
    let settings = PlayersSettings { stay: bad, ..budgets(1, 1) };
    refused(simulate(&w(), &mut pool(9), 0, 1, &settings), Refusal::Margin, 21, words);
}

#[test]
fn simulations() {
    let words = "the number of games is not 1 to 1,000";
    for games in [0, SIMULATED_MOST + 1] {
        refused(simulate(&w(), &mut pool(6), 7, games, &budgets(1, 1)), Refusal::GamesNumber, 23, words);
    }
    assert!([1, SIMULATED_MOST].iter().all(|games| simulate(&w(), &mut pool(6), 7, *games, &budgets(1, 1)).is_ok()));
}

#[test]
fn index_with_moves_and_games_alone() {
    assert_eq!(Refusal::NotEmpty(7).index(), Some(7));
    assert_eq!(Refusal::InGame(7, &Refusal::RecordBits).index(), Some(7));
    assert_eq!(Refusal::RecordBits.index(), None);
    assert_eq!(Refusal::TooManyEmpty.index(), None);
    assert_eq!(Refusal::TrainerWrites.index(), None);
    assert_eq!(Refusal::GameCount.index(), None);
    assert_eq!(Refusal::Margin.index(), None);
    assert_eq!(Refusal::ImpossibleChoice.index(), None);
    assert_eq!(Refusal::GamesNumber.index(), None);
}

/// The first check in the call's order is the answer, whatever else is wrong.
#[test]
fn first_in_order() {
    let bad = Settings { interval: 0, ..Settings::default() };
    let mut none = Pool::from_words(vec![]);
    assert_eq!(search(&[], &mut none, Rule::DrawTrue, &bad), Err(Refusal::RecordLength));
    assert_eq!(search(&E, &mut none, Rule::DrawTrue, &bad), Err(Refusal::PoolEmpty));
    assert_eq!(replay_into(&E, &[0x09], &mut []), Err(Refusal::OutputShort));
    assert_eq!(agreed_opening_into(&[0x09], &[0x09], &mut []), Err(Refusal::OutputShort));
    let mut broken = Book::from_bytes(vec![0; 23], 7);
    assert_eq!(broken.add(Trainer, &[], &mut none, Rule::DrawTrue, &bad), Err(Refusal::TrainerWrites));
    assert_eq!(broken.add(Arbiter, &[], &mut none, Rule::DrawTrue, &bad), Err(Refusal::RecordLength));
    assert_eq!(broken.publish(Trainer, &[], Rule::DrawTrue), Err(Refusal::TrainerWrites));
    assert_eq!(broken.publish(Arbiter, &[], Rule::DrawTrue), Err(Refusal::RecordLength));
}
