//! Margins of the generator's calls: how many there are, and that they try what is easily done wrong.

use calls::line::Verdict;
use calls::table::{finished, games_refusal, record_refusal, LARGEST_POOL};
use calls::{Answer, Book, Call, Fields, Kind, Position, Stay, Who};
use oracle::generate::{any_list, call, Random};
use std::collections::{BTreeMap, BTreeSet};

/// A call that searches, the book before it, and its answer.
struct Asked {
    call: Call,
    stay: Stay,
    book: Book,
    answer: Answer,
}

/// Those of so many generated lines.
fn asked(count: usize) -> Vec<Asked> {
    let mut random = Random::new(1);
    let (mut lines, mut all) = (0, Vec::new());
    while lines < count {
        let mut book = Book::default();
        let list = any_list(&mut random, &Kind::ALL);
        lines += list.len();
        for call in list {
            let before = book.clone();
            let answer = oracle::answer(&call, &mut book);
            all.extend(call.stay().map(|stay| Asked { call, stay, book: before, answer }));
        }
    }
    all
}

/// The call with another setting.
fn with(call: &Call, other: Stay) -> Call {
    let mut call = call.clone();
    *call.stay_mut().expect("it searches") = other;
    call
}

impl Asked {
    fn is_refused(&self) -> Option<u32> {
        match self.answer {
            Answer::Refused { number, .. } => Some(number),
            _ => None,
        }
    }

    /// The answer to the same call with another setting.
    fn under(&self, stay: Stay) -> Answer {
        oracle::answer(&with(&self.call, stay), &mut self.book.clone())
    }

    /// The results of its searches, which an add does not tell.
    fn results(&self) -> Vec<Fields> {
        match &self.answer {
            Answer::Search(fields) => vec![*fields],
            Answer::Full(_, first, second) => vec![*first, *second],
            Answer::Games(results) => results.clone(),
            _ => vec![],
        }
    }

    fn is_held(&self) -> bool {
        let Call::Book(line) = &self.call else { return false };
        line.asked().is_some_and(|(_, record, rule)| self.book.held(Who::Arbiter, record, rule).is_some())
    }

    fn is_finished(&self) -> bool {
        let (Call::Search { record, .. } | Call::Full { record, .. }) = &self.call else { return false };
        record_refusal(record).is_none()
            && finished(&Position::read(record.as_slice().try_into().expect("it is accepted")))
    }
}

/// With the default of `make compare`, 200,000 lines, over 30,000 are answered by searches with a margin.
#[test]
fn there_are_many() {
    let all = asked(20_000);
    let answered = |asked: &&Asked| asked.is_refused().is_none() && !asked.is_held();
    let number = |of: fn(u64) -> bool| {
        all.iter().filter(answered).filter(|asked| asked.stay.in_256ths().is_some_and(of)).count()
    };
    let (any, zero, one) = (number(|_| true), number(|parts| parts == 0), number(|parts| parts == 256));
    let off = all.iter().filter(answered).filter(|asked| asked.stay == Stay::Off).count();
    assert!(any > 3_000 && off > 2_000, "{} with a margin, {} without", any, off);
    assert!(zero > 900 && one > 700, "{} with 0, {} with 1", zero, one);
}

/// Each is tried by more than ten of 30,000 lines.
#[test]
fn margins_are_tried() {
    let mut seen: BTreeMap<&str, usize> = BTreeMap::new();
    for (what, holds) in asked(30_000).iter().flat_map(tries) {
        *seen.entry(what).or_default() += usize::from(holds);
    }
    assert!(seen.len() == 26 && seen.values().all(|times| *times > 10), "{:#?}", seen);
}

fn tries(asked: &Asked) -> Vec<(&'static str, bool)> {
    if asked.stay == Stay::Off {
        return vec![];
    }
    if asked.stay.is_refused() {
        return [of_its_bits(asked), of_the_order(asked)].concat();
    }
    let parts = |stay| asked.under(stay) != asked.answer;
    let results = asked.results();
    let ends = |cause| results.iter().any(|result| result.cause == cause) && parts(Stay::Off);
    let small = |fields: &Fields| fields.allocated - fields.freed < 100 && fields.cause == 2;
    vec![
        ("-0", asked.stay == Stay::margin(-0.0)),
        ("another answer than off, solved", ends(0)),
        ("another answer than off, the budget spent", ends(1)),
        ("another answer than off, the pool short", ends(2)),
        ("another answer than off, a small pool short", results.iter().any(small) && parts(Stay::Off)),
        ("another answer than off, over the limit", ends(3)),
        ("another answer of full or games than off", results.len() > 1 && parts(Stay::Off)),
        ("another answer than with margin 0", parts(Stay::of_256ths(0))),
        ("another answer than with margin 1", parts(Stay::of_256ths(256))),
    ]
}

/// What is wrong with a margin that check 21 refuses.
fn of_its_bits(asked: &Asked) -> Vec<(&'static str, bool)> {
    let Stay::Margin(bits) = asked.stay else { return vec![] };
    let (margin, due) = (f64::from_bits(bits), asked.is_refused() == Some(21));
    let near = |by: u64| !Stay::Margin(bits.wrapping_sub(by)).is_refused();
    vec![
        ("NaN", due && margin.is_nan()),
        ("infinite", due && margin.is_infinite()),
        ("below 0", due && margin < 0.0),
        ("above 1", due && margin > 1.0),
        ("the float after a multiple", due && near(1)),
        ("the float before a multiple", due && near(u64::MAX)),
        ("between two multiples", due && !Stay::margin(2.0 * margin).is_refused()),
    ]
}

/// What comes before check 21, and what would come after it.
fn of_the_order(asked: &Asked) -> Vec<(&'static str, bool)> {
    let (code, else_due) = (asked.is_refused(), asked.under(Stay::Off));
    let behind = |number| code == Some(21) && else_due == Answer::refused(number);
    let of_shares = matches!(&asked.call, Call::Games(games) if games_refusal(games) == Some((21, 0)));
    vec![
        ("a record is refused first", code.is_some_and(|number| number <= 6)),
        ("8 comes first", code == Some(8)),
        ("10 comes first", code == Some(10)),
        ("19 comes first", code == Some(19)),
        ("17 would come after it", behind(17)),
        ("18 would come after it", behind(18)),
        ("20 would come after it", behind(20) && of_shares),
        ("23 would come after it", behind(23)),
        ("a held pair is refused", code == Some(21) && asked.is_held()),
        ("a finished game is refused", code == Some(21) && asked.is_finished()),
    ]
}

/// The other settings of a call don't depend on the margin: a source that is read aside stays where it was.
#[test]
fn a_margin_is_drawn_aside() {
    let mut random = Random::new(1);
    let first = random.aside().word();
    assert_eq!((random.aside().word(), random.word()), (first, Random::new(1).word()));
    assert_ne!(random.aside().word(), first);
    let stays = |seed| {
        let mut random = Random::new(seed);
        (0..100).map(|_| call(&mut random, Kind::Search).stay()).collect::<Vec<_>>()
    };
    assert_eq!(stays(1), stays(1));
    assert_ne!(stays(1), stays(2));
}

/// A verdict is the same with every setting, wherever two of them have one.
#[test]
fn verdicts_do_not_depend_on_the_setting() {
    let mut random = Random::new(2);
    let mut seen = BTreeSet::new();
    for _ in 0..2_000 {
        let call = call(&mut random, Kind::Search);
        let under = |stay| match oracle::answer(&with(&call, stay), &mut Book::default()) {
            Answer::Search(fields) => fields.verdict,
            _ => Verdict::Unknown,
        };
        let verdicts: Vec<Verdict> = [0, 64, 256].map(|parts| under(Stay::of_256ths(parts))).into();
        let known = [vec![under(Stay::Off)], verdicts].concat().into_iter().filter(|v| *v != Verdict::Unknown);
        let known: BTreeSet<u8> = known.map(|verdict| verdict as u8).collect();
        assert!(known.len() < 2, "{}", call);
        seen.extend(known);
    }
    assert_eq!(seen.len(), 2);
}

/// An answered search gives the same with more pool, limit and budget, if it has the same setting.
#[test]
fn more_of_all_changes_no_answer() {
    let mut random = Random::new(3);
    let mut seen = 0;
    for call in (0..4_000).map(|_| call(&mut random, Kind::Search)) {
        let Call::Search { record, rule, pool, interval, stay, .. } = call.clone() else { unreachable!() };
        let answer = oracle::answer(&call, &mut Book::default());
        if matches!(&answer, Answer::Search(fields) if fields.cause == 0) && stay != Stay::Off {
            let (pool, limit, budget) = (LARGEST_POOL.min(pool + 1_000), u64::MAX, 1_000_000);
            let more = Call::Search { record, rule, pool, limit, budget, interval, stay };
            assert_eq!(oracle::answer(&more, &mut Book::default()), answer, "{}", call);
            seen += 1;
        }
    }
    assert!(seen > 500, "only {} were answered", seen);
}
