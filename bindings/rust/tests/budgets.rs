//! The largest budget, share and allowance, and what is above it, in every call that takes one.

mod common;

use common::book::{entry, used, FALSE};
use common::games::shared;
use common::{budget, budgets, d, pool, w, E, FREE_CHOICE};
use ultimattt::Caller::{Arbiter, Trainer};
use ultimattt::{full_verdict, judge_games, search, simulate, Book, Refusal, Rule, Verdict, BUDGET_MOST};

/// Above the range: by one, the largest of a range that once was, one that 32 bits would cut to 0, and the largest.
const OVER: [u64; 4] = [BUDGET_MOST + 1, 1_000_000_000_000, 1 << 32, u64::MAX];

#[test]
fn the_most_is_3_000_000() {
    assert_eq!(BUDGET_MOST, 3_000_000);
}

#[test]
fn searches() {
    let searched = |expansions| search(&w(), &mut pool(2), Rule::DrawFalse, &budget(expansions)).map(|r| r.verdict);
    let judged = |expansions| full_verdict(&w(), &mut pool(2), &budget(expansions)).map(|answer| answer.first.verdict);
    assert_eq!([searched(BUDGET_MOST), judged(BUDGET_MOST)], [Ok(Verdict::True); 2]);
    for over in OVER {
        assert_eq!([searched(over), judged(over)], [Err(Refusal::SettingRange); 2]);
    }
}

/// A position that is solved on sight, a pair that is held, a book without room and a trainer make no difference to
/// what is checked.
#[test]
fn adds() {
    let drawn = d(FREE_CHOICE);
    let add =
        |book: &mut Book, who, expansions| book.add(who, &drawn, &mut pool(1), Rule::DrawFalse, &budget(expansions));
    for over in OVER {
        let held = used(&[entry(&drawn, Rule::DrawFalse, FALSE)]);
        for book in [Book::new(1), held, Book::new(0), Book::from_bytes(vec![0; 21], 0)] {
            let mut after = book.clone();
            assert_eq!(add(&mut after, Arbiter, over), Err(Refusal::SettingRange));
            assert_eq!(add(&mut after, Trainer, over), Err(Refusal::TrainerWrites));
            assert_eq!((after.bytes(), after.count()), (book.bytes(), book.count()));
        }
    }
    let mut book = Book::new(1);
    assert_eq!(add(&mut book, Arbiter, BUDGET_MOST), Ok(Verdict::False));
    assert_eq!(book.count(), 1);
}

#[test]
fn shares_and_allowance() {
    let records = [w(), E];
    let judged = |allowance, shares: &[u64]| {
        let results = judge_games(&records.concat(), &mut pool(164), Rule::DrawFalse, &shared(allowance, shares));
        results.map(|results| results.len())
    };
    assert_eq!(judged(BUDGET_MOST, &[BUDGET_MOST, 0]), Ok(2));
    assert_eq!(judged(BUDGET_MOST, &[BUDGET_MOST, 1]), Err(Refusal::SharesOverAllowance));
    for over in OVER {
        assert_eq!(judged(BUDGET_MOST, &[0, over]), Err(Refusal::SettingRange));
        assert_eq!(judged(over, &[0, 0]), Err(Refusal::SettingRange));
        assert_eq!(judged(BUDGET_MOST, &[0, 0, over]), Ok(2));
    }
}

#[test]
fn players() {
    let simulated = |x, o| simulate(&w(), &mut pool(2), 0, 1, &budgets(x, o)).map(|report| report.x_wins);
    assert_eq!(simulated(BUDGET_MOST, BUDGET_MOST), Ok(1));
    for over in OVER {
        assert_eq!([simulated(over, 0), simulated(0, over)], [Err(Refusal::SettingRange); 2]);
    }
}
