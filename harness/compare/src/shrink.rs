//! Smaller lists and calls, tried one after the other until none of them shows the difference any more.

use calls::book::ENTRY;
use calls::record::{Position, EMPTY, FREE_CHOICE, LENGTH};
use calls::table::{MOVES_ROOM, RECORD_ROOM};
use calls::{Book, BookCall, Call, Games, Simulation, Stay};

/// Both zeros and margins that are refused, the plainest first.
const PLAIN: [f64; 7] = [0.0, -0.0, 1.0 / 512.0, 2.0, -1.0, f64::INFINITY, f64::NAN];

/// The smallest list found from `list` on for which `differs` holds, as it does for `list`.
pub fn smallest(mut list: Vec<Call>, differs: impl Fn(&[Call]) -> bool) -> Vec<Call> {
    loop {
        let smaller = smaller_lists(&list).find(|list| differs(list));
        let Some(smaller) = smaller else { return list };
        list = smaller;
    }
}

/// The list without its second half or without a line, but never without its first, then with one call smaller.
fn smaller_lists(list: &[Call]) -> impl Iterator<Item = Vec<Call>> + '_ {
    let half = list.len().div_ceil(2);
    let halved = (half < list.len()).then(|| list[..half].to_vec());
    let dropped = (1..list.len()).rev().map(|at| without(list, at));
    let with = |at: usize, call: Call| [&list[..at], &[call], &list[at + 1..]].concat();
    let lines = (0..list.len()).flat_map(move |at| smaller(&list[at]).into_iter().map(move |call| with(at, call)));
    halved.into_iter().chain(dropped).chain(lines)
}

/// Each is smaller: fewer bytes, fewer cells taken, plainer settings.
fn smaller(call: &Call) -> Vec<Call> {
    match call {
        Call::Moves { record, output } => {
            let mut out: Vec<Call> = records(record).map(|record| Call::Moves { record, output: *output }).collect();
            out.extend(usual(*output, MOVES_ROOM).map(|output| Call::Moves { record: record.clone(), output }));
            out
        }
        Call::Replay { record, moves, output } => {
            let with = |record: Vec<u8>, moves: Vec<u8>, output: usize| Call::Replay { record, moves, output };
            let mut out: Vec<Call> = fewer(moves).map(|m| with(record.clone(), m, *output)).collect();
            out.extend(records(record).map(|r| with(r, moves.clone(), *output)));
            out.extend(usual(*output, RECORD_ROOM).map(|o| with(record.clone(), moves.clone(), o)));
            out
        }
        Call::Search { record, rule, pool, limit, budget, interval, stay } => {
            let rule = *rule;
            searches(record, [*pool, *limit, *budget, *interval], *stay, |record, numbers, stay| {
                let [pool, limit, budget, interval] = numbers;
                Call::Search { record, rule, pool, limit, budget, interval, stay }
            })
        }
        Call::Full { record, pool, limit, budget, interval, stay } => {
            searches(record, [*pool, *limit, *budget, *interval], *stay, |record, numbers, stay| {
                let [pool, limit, budget, interval] = numbers;
                Call::Full { record, pool, limit, budget, interval, stay }
            })
        }
        Call::Referee { record, rule } => {
            let mut out: Vec<Call> = lower(*rule).map(|rule| Call::Referee { record: record.clone(), rule }).collect();
            out.extend(records(record).map(|record| Call::Referee { record, rule: *rule }));
            out
        }
        Call::Sheets { first, second, output } => sheets(first, second, *output),
        Call::Book(line) => smaller_lines(line),
        Call::Games(games) => smaller_games(games).into_iter().map(Call::Games).collect(),
        Call::Simulate(call) => smaller_simulations(call).into_iter().map(Call::Simulate).collect(),
    }
}

/// Without a game and its share, then with a plainer margin, a lower number, a smaller record or without the last byte.
fn smaller_games(games: &Games) -> Vec<Games> {
    let mut out: Vec<Games> = (0..games.count()).rev().map(|at| without_game(games, at)).collect();
    out.extend(plainer(games.stay).into_iter().map(|stay| Games { stay, ..games.clone() }));
    out.extend(with_lower(games, |games| games.numbers().into()));
    let with = |records: Vec<u8>| Games { records, ..games.clone() };
    out.extend(games.records.split_last().map(|(_, rest)| with(rest.to_vec())));
    for (at, record) in games.records.chunks_exact(LENGTH).enumerate() {
        let (before, after) = (&games.records[..LENGTH * at], &games.records[LENGTH * (at + 1)..]);
        out.extend(records(record).map(|fewer| with([before, &fewer, after].concat())));
    }
    out
}

/// Fewer games, lower budgets, a lower seed or another lower number, then a plainer margin or a smaller record.
fn smaller_simulations(call: &Simulation) -> Vec<Simulation> {
    let mut out = with_lower(call, |call| call.numbers().into());
    out.extend(plainer(call.stay).into_iter().map(|stay| Simulation { stay, ..call.clone() }));
    out.extend(records(&call.record).map(|record| Simulation { record, ..call.clone() }));
    out
}

/// The call with one of its numbers lower, in their order.
fn with_lower<T: Clone>(call: &T, numbers: impl Fn(&mut T) -> Vec<&mut u64>) -> Vec<T> {
    let mut whole = call.clone();
    let lowered = numbers(&mut whole)
        .into_iter()
        .enumerate()
        .flat_map(|(at, number)| lower(*number).map(move |less| (at, less)).collect::<Vec<_>>());
    let with = |(at, less): (usize, u64)| {
        let mut fewer = call.clone();
        *numbers(&mut fewer)[at] = less;
        fewer
    };
    lowered.map(with).collect()
}

/// The shares of the games behind it move up.
fn without_game(games: &Games, at: usize) -> Games {
    let mut fewer = games.clone();
    fewer.records.drain(LENGTH * at..LENGTH * (at + 1));
    if let Some(rest) = fewer.shares.get_mut(at..) {
        rest.rotate_left(1);
    }
    fewer
}

/// A book with fewer entries, bytes or used entries; a call of it as other calls are made smaller.
fn smaller_lines(line: &BookCall) -> Vec<Call> {
    match line {
        BookCall::New { entries } => {
            lower(*entries as u64).map(|n| Call::Book(BookCall::New { entries: n as usize })).collect()
        }
        BookCall::Set(book) => books(book).map(|book| Call::Book(BookCall::Set(book))).collect(),
        BookCall::Dump => vec![],
        BookCall::Lookup { who, record, rule } => {
            let with = |record| Call::Book(BookCall::Lookup { who: *who, record, rule: *rule });
            records(record).map(with).collect()
        }
        BookCall::Publish { who, record, rule } => {
            let with = |record| Call::Book(BookCall::Publish { who: *who, record, rule: *rule });
            records(record).map(with).collect()
        }
        BookCall::Add { who, record, rule, pool, limit, budget, interval, stay } => {
            let (who, rule) = (*who, *rule);
            searches(record, [*pool, *limit, *budget, *interval], *stay, |record, numbers, stay| {
                let [pool, limit, budget, interval] = numbers;
                Call::Book(BookCall::Add { who, record, rule, pool, limit, budget, interval, stay })
            })
        }
    }
}

/// The book without one of its entries, used or not, without its last byte, or with a smaller count.
fn books(book: &Book) -> impl Iterator<Item = Book> + '_ {
    let with = |bytes: Vec<u8>, count: u64| Book { bytes, count };
    let entries = (0..book.entries() as usize).rev().map(move |at| {
        let bytes = [&book.bytes[..ENTRY * at], &book.bytes[ENTRY * (at + 1)..]].concat();
        with(bytes, book.count - u64::from((at as u64) < book.count))
    });
    let shorter = book.bytes.split_last().map(|(_, rest)| with(rest.to_vec(), book.count));
    entries.chain(shorter).chain(lower(book.count).map(move |count| with(book.bytes.clone(), count)))
}

/// Both sheets without the same move, then one of them with fewer moves, then the usual output.
fn sheets(first: &[u8], second: &[u8], output: usize) -> Vec<Call> {
    let with = |first: Vec<u8>, second: Vec<u8>, output: usize| Call::Sheets { first, second, output };
    let both = (0..first.len().min(second.len())).rev();
    let mut out: Vec<Call> = both.map(|at| with(without(first, at), without(second, at), output)).collect();
    out.extend(fewer(first).map(|f| with(f, second.to_vec(), output)));
    out.extend(fewer(second).map(|s| with(first.to_vec(), s, output)));
    out.extend(usual(output, RECORD_ROOM).map(|o| with(first.to_vec(), second.to_vec(), o)));
    out
}

/// Calls made from a plainer margin, from numbers (pool, limit, budget, interval) of which one is smaller, or from a
/// smaller record.
fn searches(
    record: &[u8],
    settings: [u64; 4],
    stay: Stay,
    call: impl Fn(Vec<u8>, [u64; 4], Stay) -> Call,
) -> Vec<Call> {
    // Budget, pool, interval, limit.
    let places = [2, 0, 3, 1].into_iter();
    let lowered = places.flat_map(|at| {
        lower(settings[at]).map(move |less| {
            let mut fewer = settings;
            fewer[at] = less;
            fewer
        })
    });
    let mut out: Vec<Call> = plainer(stay).into_iter().map(|stay| call(record.to_vec(), settings, stay)).collect();
    out.extend(lowered.map(|fewer| call(record.to_vec(), fewer, stay)));
    out.extend(records(record).map(|fewer| call(fewer, settings, stay)));
    out
}

/// Off, then margins of fewer 256ths; for 0 and for one that is refused those of the list that stand before it.
fn plainer(stay: Stay) -> Vec<Stay> {
    let margins: Vec<Stay> = match stay.in_256ths() {
        _ if stay == Stay::Off => return vec![],
        Some(number @ 1..) => lower(number).map(Stay::of_256ths).collect(),
        _ => PLAIN.map(Stay::margin).into_iter().take_while(|margin| *margin != stay).collect(),
    };
    [vec![Stay::Off], margins].concat()
}

/// The moves without one, or cut in half.
fn fewer(moves: &[u8]) -> impl Iterator<Item = Vec<u8>> + '_ {
    let halves = [moves.len() / 2].into_iter().filter(|half| *half < moves.len()).map(|half| moves[..half].to_vec());
    halves.chain((0..moves.len()).rev().map(|at| without(moves, at)))
}

/// The list without what stands at `at`.
fn without<T: Clone>(list: &[T], at: usize) -> Vec<T> {
    [&list[..at], &list[at + 1..]].concat()
}

/// The usual length, where it is another.
fn usual(output: usize, usual: usize) -> impl Iterator<Item = usize> {
    (output != usual).then_some(usual).into_iter()
}

/// A few smaller numbers.
fn lower(number: u64) -> impl Iterator<Item = u64> {
    [0, 1, number / 2, number.saturating_sub(1)].into_iter().filter(move |n| *n < number)
}

/// The record with one or two cells emptied; one of another length with its last byte dropped.
fn records(record: &[u8]) -> Box<dyn Iterator<Item = Vec<u8>> + '_> {
    let Ok(bytes) = <&[u8; LENGTH]>::try_from(record) else {
        let shorter = record.len().checked_sub(1).map(|length| record[..length].to_vec());
        return Box::new(shorter.into_iter());
    };
    let position = Position::read(bytes);
    let taken: Vec<usize> = (0..81).filter(|at| position.cells[at / 9][at % 9] != EMPTY).collect();
    let pairs: Vec<(usize, usize)> =
        taken.iter().flat_map(|a| taken.iter().filter(move |b| a <= *b).map(move |b| (*a, *b))).collect();
    let emptied = pairs.into_iter().map(move |(a, b)| {
        let mut fewer = position;
        fewer.cells[a / 9][a % 9] = EMPTY;
        fewer.cells[b / 9][b % 9] = EMPTY;
        if a == b {
            fewer.side = 1 - fewer.side;
        }
        fewer.write().to_vec()
    });
    let free = (position.target != FREE_CHOICE).then(|| Position { target: FREE_CHOICE, ..position }.write().to_vec());
    Box::new(emptied.chain(free))
}
