//! The margin of a call that searches: its word in a line, which floats are taken, and where check 21 stands.

use calls::table::{add_refusal, full_refusal, games_refusal, search_refusal, LARGEST_POOL};
use calls::{line, Book, Games, Position, Stay, Who};

/// A line of each call that searches, without a margin.
const LINES: [&str; 5] = [
    "search 00 0 1 18446744073709551615 3 4",
    "full 00 1 18446744073709551615 3 4",
    "book add trainer 00 0 1 2 3 4",
    "eight 00 0 1 2 3 4 1,2,3,4,5,6,7,8",
    "sim 00 1 2 3 4 5 6 7",
];

/// Not a number, and as a signalling one.
const NAN: u64 = 0x7FF8_0000_0000_0000;
const SIGNALLING: u64 = 0x7FF0_0000_0000_0001;

#[test]
fn a_margin_is_sixteen_digits_or_off_or_left_out() {
    for text in LINES {
        let with = |word: &str| line::parse(&format!("{} {}", text, word));
        let margin = with("3fF0000000000000").expect(text);
        assert_eq!(margin.to_string(), format!("{} 3FF0000000000000", text));
        assert_eq!(margin.stay(), Some(Stay::margin(1.0)));
        let nan = with("FFF8000000000001").expect(text);
        assert_eq!(nan.to_string(), format!("{} FFF8000000000001", text));
        assert_eq!(nan.stay(), Some(Stay::Margin(!0 << 51 | 1)));
        let off = line::parse(text).expect(text);
        assert_eq!((with("off").as_ref(), off.to_string().as_str()), (Ok(&off), text));
        assert_eq!(off.stay(), Some(Stay::Off));
    }
    assert_eq!(line::parse("book lookup arbiter 00 0").map(|call| call.stay()), Ok(None));
}

#[test]
fn other_words_are_told() {
    let wrong = [
        "Off",
        "on",
        "-",
        "0",
        "1",
        "0.5",
        "NaN",
        "3FF000000000000",
        "3FF00000000000000",
        "3FF00000000000000000",
        "3FG0000000000000",
        "+FF0000000000000",
        "0x3FF00000000000",
        "off off",
        "off 3FF0000000000000",
        "3FF0000000000000 0",
    ];
    for (text, word) in LINES.iter().flat_map(|text| wrong.map(|word| (text, word))) {
        assert!(line::parse(&format!("{} {}", text, word)).is_err(), "{} {}", text, word);
    }
    let message = line::parse(&format!("{} 0", LINES[0])).expect_err("too few digits");
    assert_eq!(message, "margin: \"0\" is not 16 digits in hexadecimal, nor off");
}

/// All 257 multiples are taken, and no float next to one of them but the two zeros.
#[test]
fn whole_multiples_are_taken() {
    for number in 0..=256 {
        let multiple = Stay::of_256ths(number);
        assert_eq!((multiple.in_256ths(), multiple.is_refused()), (Some(number), false));
        let Stay::Margin(bits) = multiple else { unreachable!() };
        assert!([bits + 1, bits.wrapping_sub(1)].into_iter().all(|near| Stay::Margin(near).is_refused()), "{}", number);
        assert_eq!(Stay::Margin(bits | 1 << 63).is_refused(), number > 0, "{}", number);
        assert!(Stay::margin((2 * number + 1) as f64 / 512.0).is_refused(), "{}", number);
    }
    assert_eq!(Stay::margin(-0.0).in_256ths(), Some(0));
    assert_eq!((Stay::Off.in_256ths(), Stay::Off.is_refused()), (None, false));
}

#[test]
fn other_floats_are_refused() {
    let floats = [
        257.0 / 256.0,
        1.5,
        2.0,
        256.0,
        1e300,
        f64::MAX,
        f64::INFINITY,
        f64::NEG_INFINITY,
        -1.0 / 256.0,
        -1.0,
        f64::MIN,
        f64::MIN_POSITIVE,
        f64::EPSILON,
        0.1,
        1.0 / 3.0,
    ];
    assert!(floats.into_iter().all(|float| Stay::margin(float).is_refused()));
    let bits = [1, 2, 1 << 63 | 1, (1 << 52) - 1, NAN, NAN | 1 << 63, SIGNALLING, SIGNALLING | 1 << 63, u64::MAX];
    assert!(bits.into_iter().all(|bits| Stay::Margin(bits).is_refused()));
}

#[test]
fn a_margin_is_passed_bit_by_bit() {
    let bits = |stay: Stay| stay.passed(f64::from_bits(SIGNALLING)).1.to_bits();
    assert_eq!([Stay::Off, Stay::Margin(NAN), Stay::Margin(1)].map(bits), [SIGNALLING, NAN, 1]);
    assert_eq!([Stay::Off, Stay::Margin(NAN)].map(|stay| stay.passed(0.0).0), [false, true]);
}

/// After 10, of a finished game too, and ahead of 17, 18 and the shares' 20.
#[test]
fn check_21_has_its_place() {
    let (start, bad) = (Position::start().write(), Stay::Margin(NAN));
    let search = |record: &[u8], rule, pool, interval| search_refusal(record, rule, pool, 0, interval, bad);
    assert_eq!(search(&start[1..], 3, 0, 0), Some(1));
    assert_eq!(search(&start, 3, 0, 0), Some(8));
    assert_eq!(search(&start, 3, LARGEST_POOL + 1, 0), Some(9));
    assert_eq!(search(&start, 3, 1, 1), Some(10));
    assert_eq!(search(&start, 2, 1, 1), Some(21));
    assert_eq!(full_refusal(&start, 1, 0, 0, bad), Some(10));
    assert_eq!(full_refusal(&start, 1, 0, 1, bad), Some(21));
    assert_eq!(full_refusal(&start, 1, 0, 1, Stay::margin(-0.0)), None);
    let broken = Book { bytes: vec![0; 21], count: 0 };
    for book in [&broken, &Book::default(), &Book::empty(1)] {
        let add = |who, rule| add_refusal(book, who, &start, rule, [1, 0, 1], bad);
        assert_eq!(add(Who::Trainer, 3), Some(19));
        assert_eq!([add(Who::Arbiter, 3), add(Who::Arbiter, 2)], [Some(10), Some(21)]);
    }
}

#[test]
fn check_21_of_games_has_its_place() {
    let records = Position::start().write().to_vec();
    let good = Games {
        records,
        rule: 0,
        pool: 1,
        limit: 0,
        allowance: 0,
        interval: 1,
        shares: [0; 8],
        stay: Stay::Margin(SIGNALLING),
    };
    let over = Games { shares: [1; 8], ..good.clone() };
    assert_eq!(games_refusal(&good), Some((21, 0)));
    assert_eq!(games_refusal(&over), Some((21, 0)));
    assert_eq!(games_refusal(&Games { stay: Stay::margin(0.0), ..over.clone() }), Some((20, 0)));
    assert_eq!(games_refusal(&Games { rule: 3, ..over.clone() }), Some((10, 0)));
    assert_eq!(games_refusal(&Games { pool: 0, ..over.clone() }), Some((8, 0)));
    assert_eq!(games_refusal(&Games { records: vec![], ..over.clone() }), Some((20, 0)));
    assert_eq!(games_refusal(&Games { records: vec![0x48; 21], ..over }), Some((2, 0)));
}
