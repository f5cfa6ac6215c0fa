//! The oracle gives the answers of cases.txt: the manual's (MANUAL, Positions to try), and the small searches.

use calls::{line, Book};

#[test]
fn cases_are_answered_as_written() {
    let mut seen = 0;
    let mut book = Book::default();
    for (call, answer) in oracle::cases::cases() {
        let read = line::parse(call).expect(call);
        assert_eq!(read.to_string(), call, "a call prints as it was read");
        assert_eq!(oracle::answer(&read, &mut book).to_string(), answer, "{}", call);
        seen += 1;
    }
    assert!(seen > 50, "only {} cases were read", seen);
}

/// The original keeps its limit in bytes: limit times 20. The first limit for which that product
/// does not fit is given as none, and the answer is that of the largest that fits.
#[test]
fn a_limit_too_large_to_be_held_is_none() {
    assert_eq!(oracle::prove::pn::sizeof_node(), 20);
    let answer = |limit: u64| {
        let call = format!("search 7822D2CD2B352CCB12D4CB52C9534A84CCB334AD52 0 3276 {} 100000 1", limit);
        oracle::answer(&line::parse(&call).expect("a call"), &mut Book::default()).to_string()
    };
    assert_eq!(answer(922_337_203_685_477_580), "True 0 2147483650 12 11 3 3 7 0");
    assert_eq!(answer(922_337_203_685_477_581), "True 0 2147483650 12 11 3 3 7 0");
    assert_eq!(answer(u64::MAX), "True 0 2147483650 12 11 3 3 7 0");
}
