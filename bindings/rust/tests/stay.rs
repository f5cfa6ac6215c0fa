//! Staying on a line: what a margin changes, which are refused, and that it is not read where it is off.

mod common;

use common::book::{found, used};
use common::ffi::{uttt_search, SearchAnswer};
use common::games::shared;
use common::{budget, d, passed, pool, s, w, E, FREE_CHOICE};
use ultimattt::Caller::{Arbiter, Trainer};
use ultimattt::{full_verdict, judge_games, search, Book, GamesSettings, Pool, Refusal, Rule, Settings, Stay, Verdict};

const OFF: &str = "True 0 2147483649 9 8 4 0 5 0";
const MARGIN_0: &str = "True 0 2147483648 12 11 4 3 7 0";
const MARGIN_1: &str = "True 0 2147483649 7 6 4 0 4 0";
/// What each margin gives for S under rule 0.
const MARGINS: [(f64, &str); 7] = [
    (0.0, MARGIN_0),
    (-0.0, MARGIN_0),
    (1.0 / 256.0, MARGIN_0),
    (0.25, MARGIN_0),
    (0.5, MARGIN_0),
    (255.0 / 256.0, MARGIN_0),
    (1.0, MARGIN_1),
];

fn staying(stay: Stay) -> Settings {
    Settings { stay, ..Settings::default() }
}

fn line(stay: Stay) -> String {
    let rule = Rule::DrawLostByMover;
    search(&s(), &mut Pool::default(), rule, &staying(stay)).expect("an accepted search").to_string()
}

#[test]
fn off_by_default() {
    assert_eq!((Settings::default().stay, GamesSettings::default().stay), (Stay::Off, Stay::Off));
    assert_eq!(line(Stay::default()), OFF);
}

#[test]
fn margin_0_is_not_off() {
    for (margin, due) in MARGINS {
        assert_eq!(line(Stay::Margin(margin)), due, "{margin}");
    }
    assert_eq!(Stay::Margin(0.0), Stay::Margin(-0.0));
    assert_ne!(Stay::Margin(0.0), Stay::Off);
}

#[test]
fn both_searches_of_a_full_verdict_stay() {
    for stay in [Stay::Off, Stay::Margin(0.0), Stay::Margin(1.0)] {
        let answer = full_verdict(&s(), &mut Pool::default(), &staying(stay)).unwrap();
        let alone = |rule| search(&s(), &mut Pool::default(), rule, &staying(stay)).unwrap();
        assert_eq!((answer.first, answer.second), (alone(Rule::DrawFalse), alone(Rule::DrawTrue)));
    }
}

/// One that goes on in the second pass stays with what it took in the first.
#[test]
fn games_stay_over_both_passes() {
    for (margin, due) in MARGINS {
        for share in 0..=7 {
            let settings = GamesSettings { stay: Stay::Margin(margin), ..shared(7, &[share]) };
            let results = judge_games(&s(), &mut pool(20), Rule::DrawLostByMover, &settings).unwrap();
            assert_eq!(results[0].to_string(), due, "margin {margin}, share {share}");
        }
    }
}

/// With six nodes S is answered with margin 1 alone, and what was stored is held with every setting.
#[test]
fn adds_stay() {
    let mut book = Book::new(1);
    for (margin, due) in MARGINS {
        let settings = Settings { stay: Stay::Margin(margin), ..budget(9) };
        let verdict = if due == MARGIN_1 { Verdict::True } else { Verdict::Unknown };
        assert_eq!(book.add(Arbiter, &s(), &mut pool(6), Rule::DrawFalse, &settings), Ok(verdict), "{margin}");
    }
    assert_eq!(found(&book, &s(), Rule::DrawFalse), Some(true));
    assert_eq!(book.add(Arbiter, &s(), &mut pool(1), Rule::DrawFalse, &budget(0)), Ok(Verdict::True));
}

/// Each multiple is taken, and neither float next to it; D is finished, so nothing is searched.
#[test]
fn whole_multiples_of_a_256th() {
    let asked = |margin| search(&d(FREE_CHOICE), &mut pool(1), Rule::DrawTrue, &staying(Stay::Margin(margin)));
    for number in 0..=256 {
        let margin = f64::from(number) / 256.0;
        assert!(asked(margin).is_ok(), "{margin}");
        assert_eq!(asked(f64::from_bits(margin.to_bits() + 1)), Err(Refusal::Margin));
        assert_eq!(asked(margin + 1.0 / 512.0), Err(Refusal::Margin));
        if number > 0 {
            assert_eq!(asked(f64::from_bits(margin.to_bits() - 1)), Err(Refusal::Margin));
            assert_eq!(asked(-margin), Err(Refusal::Margin));
        }
    }
    let others = [f64::NAN, -f64::NAN, f64::INFINITY, f64::NEG_INFINITY, 257.0 / 256.0, 2.0, f64::MAX, f64::MIN];
    assert!(others.into_iter().all(|margin| asked(margin) == Err(Refusal::Margin)));
    let bits = [1, 1 << 63 | 1, (1 << 52) - 1, 0x7FF0_0000_0000_0001, 0xFFF4_0000_0000_0000, u64::MAX];
    assert!(bits.into_iter().all(|bits| asked(f64::from_bits(bits)) == Err(Refusal::Margin)));
}

/// The answer to a search of S under rule 0 with both values as they are given.
fn answer(staying: bool, margin: f64) -> SearchAnswer {
    let (record, mut words) = (s(), [0; 60]);
    let (at, length, to, number) = (record.as_ptr(), record.len(), words.as_mut_ptr(), words.len());
    // SAFETY: both slices are valid for their lengths, and a &mut overlaps nothing.
    unsafe { uttt_search(at, length, to, number, 0, u64::MAX, 100, 1, staying, margin) }
}

#[test]
fn not_read_where_it_is_off() {
    let due = answer(false, 0.0).result;
    assert_eq!(due.expanded, 5);
    let bits = [0x7FF8_0000_0000_0000, 0x7FF0_0000_0000_0001, u64::MAX, 1, 1 << 63, 0x3FF0_0000_0000_0000];
    for bits in bits {
        let found = answer(false, f64::from_bits(bits));
        assert!((found.code, found.index) == (0, 0) && found.result == due, "{bits:016X}");
    }
    assert_eq!([Stay::Margin(0.0), Stay::Margin(1.0)].map(passed).map(|(on, m)| answer(on, m).result.expanded), [7, 4]);
}

/// After the settings' ranges, and ahead of all that is wrong with the book; a trainer is refused first.
#[test]
fn order_of_the_checks() {
    let bad = staying(Stay::Margin(0.1));
    let late = Settings { interval: 0, ..bad };
    let mut none = Pool::from_words(vec![]);
    let asked = |record: &[u8], pool: &mut Pool, s: &Settings| search(record, pool, Rule::DrawTrue, s).unwrap_err();
    assert_eq!(asked(&E[1..], &mut none, &late), Refusal::RecordLength);
    assert_eq!(asked(&E, &mut none, &late), Refusal::PoolEmpty);
    assert_eq!(asked(&E, &mut pool(1), &late), Refusal::SettingRange);
    assert_eq!(asked(&E, &mut pool(1), &bad), Refusal::Margin);
    assert_eq!(full_verdict(&E, &mut pool(1), &late), Err(Refusal::SettingRange));
    assert_eq!(full_verdict(&E, &mut pool(1), &bad), Err(Refusal::Margin));
    let held = used(&[common::book::entry(&w(), Rule::DrawTrue, common::book::TRUE)]);
    for mut book in [Book::from_bytes(vec![0; 21], 3), Book::new(0), Book::new(1), held] {
        let mut add = |who, s| book.add(who, &w(), &mut pool(9), Rule::DrawTrue, s).unwrap_err();
        assert_eq!(add(Trainer, &bad), Refusal::TrainerWrites);
        assert_eq!(add(Arbiter, &late), Refusal::SettingRange);
        assert_eq!(add(Arbiter, &bad), Refusal::Margin);
    }
}

#[test]
fn nothing_is_written_with_a_refusal() {
    let bad = Stay::Margin(f64::from_bits(1));
    let words: Vec<u32> = (0..304).map(|i: u32| i.wrapping_mul(0x9E37_79B9)).collect();
    let (mut pool, mut book) = (Pool::from_words(words.clone()), Book::from_bytes(vec![0xEE; 44], 1));
    assert!(search(&s(), &mut pool, Rule::DrawFalse, &staying(bad)).is_err());
    assert!(full_verdict(&s(), &mut pool, &staying(bad)).is_err());
    assert!(judge_games(&s(), &mut pool, Rule::DrawFalse, &GamesSettings { stay: bad, ..shared(9, &[1]) }).is_err());
    assert!(book.add(Arbiter, &s(), &mut pool, Rule::DrawFalse, &staying(bad)).is_err());
    assert_eq!((pool.into_words(), book.count(), book.into_bytes()), (words, 1, vec![0xEE; 44]));
}
