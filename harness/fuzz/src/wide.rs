//! Lengths, counts, budgets and numbers of games that 32 bits can't tell: cut to 32 bits they would give another
//! answer. Of a buffer so long the first page can be written, the others only read.

use crate::books::added;
use crate::exports::Exports;
use crate::guarded::Region;
use crate::run::{judged, judged_together, searched, simulated, Answered};
use crate::watch;
use calls::book::{entry, ENTRY, MARK};
use calls::games::MOST_GAMES;
use calls::hex;
use calls::record::{Position, LENGTH};
use calls::table::MOVES_ROOM;

const OVER: usize = 1 << 32;
const NODE_WORDS: usize = 5;
/// The settings of the searches: rule 0, no limit, one expansion, interval 1, staying off. Players have any seed.
const RULE: u64 = 0;
const LIMIT: u64 = u64::MAX;
const SEED: u64 = 1;
const OFF: bool = false;
const UNREAD: f64 = f64::NAN;
/// A share of one expansion for the first game.
const SHARES: [u64; MOST_GAMES] = [1, 0, 0, 0, 0, 0, 0, 0];
/// Who calls.
const ARBITER: bool = false;
const TRAINER: bool = true;
/// D of the manual.
const DRAWN: &str = "7AB400AC0054001500054000A8002A000A80054000";

/// What is too long or too large, what is due, and the answer.
type Tried = (&'static str, (u32, u64), Answered);

/// Tries all; gives how many there were, or none where the system has not so many addresses for the long ones. The
/// other numbers are tried there too.
pub fn check(exports: &Exports, seconds: u32) -> Result<Option<usize>, String> {
    let numbers = watch::during("a count, a budget or games of 4294967296 or more", seconds, || {
        Ok::<Vec<Tried>, String>([large_counts(exports)?, large_budgets(exports)?].concat())
    })?;
    as_due(&numbers)?;
    let (Some(mut long), Some(mut longest)) = (Region::new(OVER + LENGTH), Region::new(LENGTH * (OVER + 1))) else {
        return Ok(None);
    };
    let tried = watch::during("a length over 4294967296", seconds, || {
        let parts = [
            long_records(exports, &mut long)?,
            long_lists(exports, &mut long)?,
            long_sheets(exports, &mut long)?,
            long_books(exports, &mut long)?,
            long_pools(exports, &mut longest)?,
            many_games(exports, &mut longest)?,
        ];
        Ok::<Vec<Tried>, String>(parts.into_iter().flatten().collect())
    })?;
    as_due(&tried)?;
    Ok(Some(numbers.len() + tried.len()))
}

fn as_due(tried: &[Tried]) -> Result<(), String> {
    match tried.iter().find(|(_, due, a)| (a.code, a.index) != *due) {
        None => Ok(()),
        Some((what, due, a)) => Err(format!("{}: code {} and index {}, not {:?}", what, a.code, a.index, due)),
    }
}

fn bare(code: u32, index: u64) -> Answered {
    Answered { code, index, numbers: vec![], output: vec![] }
}

/// The empty board's record, and more bytes: refused by check 1, and nothing is written.
fn long_records(exports: &Exports, long: &mut Region) -> Result<Vec<Tried>, String> {
    let record = Position::start().write();
    long.lend_long(OVER + LENGTH, &record);
    let (at, length) = (long.pointer(), OVER + LENGTH);
    let (mut out, mut pool) = ([0; MOVES_ROOM], [0; NODE_WORDS * 100]);
    let (to, room, words, size) = (out.as_mut_ptr(), out.len(), pool.as_mut_ptr(), pool.len());
    let mut book = [0; ENTRY];
    let entries = book.as_mut_ptr();
    // SAFETY: pointers and lengths belong together, and the buffers are apart.
    let tried = unsafe {
        let moves = (exports.moves)(at, length, to, room);
        let replay = (exports.replay)(at, length, at, 0, to, room);
        let referee = (exports.referee)(at, length, RULE);
        let search = (exports.search)(at, length, words, size, RULE, LIMIT, 1, 1, OFF, UNREAD);
        let full = (exports.full)(at, length, words, size, LIMIT, 1, 1, OFF, UNREAD);
        let lookup = (exports.lookup)(TRAINER, entries, ENTRY, 0, at, length, RULE);
        let publish = (exports.publish)(ARBITER, entries, ENTRY, 0, at, length, RULE);
        let add = (exports.add)(ARBITER, entries, ENTRY, 0, at, length, words, size, RULE, LIMIT, 1, 1, OFF, UNREAD);
        let games = (exports.games)(at, length, words, size, &SHARES, RULE, LIMIT, 1, 1, OFF, UNREAD);
        let players = (exports.simulate)(at, length, words, size, SEED, 1, LIMIT, 1, 1, 1, OFF, UNREAD);
        vec![
            ("moves, record", (1, 0), bare(moves.code, moves.index)),
            ("replay, record", (1, 0), bare(replay.code, replay.index)),
            ("referee, record", (1, 0), bare(referee.code, referee.index)),
            ("search, record", (1, 0), searched(search)),
            ("full, record", (1, 0), judged(full)),
            ("lookup, record", (1, 0), bare(lookup.code, lookup.index)),
            ("publish, record", (1, 0), bare(publish.code, publish.index)),
            ("add, record", (1, 0), bare(add.code, add.index)),
            ("games, records", (1, 0), judged_together(games)),
            ("simulate, record", (1, 0), simulated(players)),
        ]
    };
    long.unchanged(LENGTH)?;
    let written = out != [0; MOVES_ROOM] || pool != [0; NODE_WORDS * 100] || book != [0; ENTRY];
    if long.bytes()[..LENGTH] != record || written {
        return Err("a long record: something was written".to_string());
    }
    Ok(tried)
}

/// A list of 00 over and over, bad at index 1; and outputs that cut short would have no room.
fn long_lists(exports: &Exports, long: &mut Region) -> Result<Vec<Tried>, String> {
    let record = Position::start().write();
    let (from, size, mut out) = (record.as_ptr(), record.len(), [0; LENGTH]);
    long.lend_long(OVER + 1, &[]);
    // SAFETY: pointers and lengths belong together, and the buffers are apart.
    let list = unsafe { (exports.replay)(from, size, long.pointer(), OVER + 1, out.as_mut_ptr(), out.len()) };
    long.unchanged(0)?;
    long.lend_long(OVER + 1, &[]);
    // SAFETY: as above.
    let moves = unsafe { (exports.moves)(from, size, long.pointer(), OVER + 1) };
    long.unchanged(MOVES_ROOM)?;
    long.lend_long(OVER + 1, &[]);
    // SAFETY: as above.
    let replay = unsafe { (exports.replay)(from, size, from, 0, long.pointer(), OVER + 1) };
    long.unchanged(LENGTH)?;
    Ok(vec![
        ("replay, moves", (15, 1), bare(list.code, list.index)),
        ("moves, output", (0, 0), bare(moves.code, moves.index)),
        ("replay, output", (0, 0), bare(replay.code, replay.index)),
    ])
}

/// A list of 00 over and over as either sheet, with 00 alone as the other, then a long output: the opening has one
/// move, and a length cut short would give none or refusal 7. The count stands in the index's place.
fn long_sheets(exports: &Exports, long: &mut Region) -> Result<Vec<Tried>, String> {
    let (one, mut out, mut numbers) = ([0], [0; LENGTH], [u32::MAX; 3]);
    let (short, to, [first, second, third]) = (one.as_ptr(), out.as_mut_ptr(), &mut numbers);
    long.lend_long(OVER, &[]);
    let at = long.pointer();
    // SAFETY: pointers and lengths belong together; what is written is apart from all else.
    let (as_first, as_second) = unsafe {
        let as_first = (exports.sheets)(at, OVER, short, 1, to, LENGTH, first);
        (as_first, (exports.sheets)(short, 1, at, OVER, to, LENGTH, second))
    };
    long.unchanged(0)?;
    long.lend_long(OVER, &[]);
    // SAFETY: as above.
    let as_output = unsafe { (exports.sheets)(short, 1, short, 1, at, OVER, third) };
    long.unchanged(LENGTH)?;
    Ok(vec![
        ("sheets, first", (0, 1), bare(*first, as_first)),
        ("sheets, second", (0, 1), bare(*second, as_second)),
        ("sheets, output", (0, 1), bare(*third, as_output)),
    ])
}

/// A book of whole entries with two of a drawn position, True under rules 0 and 1, of which the first is used: cut
/// short it would be no multiple of an entry. The first is published and found, and the add writes over the second: the
/// position is False under rule 1. What a call found or did stands in the index's place.
fn long_books(exports: &Exports, long: &mut Region) -> Result<Vec<Tried>, String> {
    let record = hex::read(DRAWN).expect("hexadecimal");
    let (from, size, length) = (record.as_ptr(), record.len(), OVER.next_multiple_of(ENTRY));
    let mut pool = [0; NODE_WORDS];
    long.lend_long(length, &[entry(&record, 0, 1, 0), entry(&record, 1, 1, 0)].concat());
    let at = long.pointer();
    let (words, k) = (pool.as_mut_ptr(), pool.len());
    // SAFETY: pointers and lengths belong together, and the buffers are apart.
    let (lookup, publish, published, add) = unsafe {
        let lookup = (exports.lookup)(ARBITER, at, length, 1, from, size, 0);
        let publish = (exports.publish)(ARBITER, at, length, 1, from, size, 0);
        let published = (exports.lookup)(TRAINER, at, length, 1, from, size, 0);
        let add = (exports.add)(ARBITER, at, length, 1, from, size, words, k, 1, LIMIT, 0, 1, OFF, UNREAD);
        (lookup, publish, published, add)
    };
    long.unchanged(2 * ENTRY)?;
    if add.count != 2 || long.bytes()[..2 * ENTRY] != [entry(&record, 0, 1, MARK), entry(&record, 1, 2, 0)].concat() {
        return Err(format!("a long book: count {} after an add, or another entry", add.count));
    }
    Ok(vec![
        ("lookup, book", (0, 1), bare(lookup.code, lookup.verdict.into())),
        ("publish, book", (0, 1), bare(publish.code, publish.published.into())),
        ("lookup, published", (0, 1), bare(published.code, published.verdict.into())),
        ("add, book", (0, 2), bare(add.code, add.verdict.into())),
    ])
}

/// A book of one entry, and a count that cut short would be 1: refused by check 17, and nothing is written.
fn large_counts(exports: &Exports) -> Result<Vec<Tried>, String> {
    let record = hex::read(DRAWN).expect("hexadecimal");
    let (from, size, mut pool) = (record.as_ptr(), record.len(), [0; NODE_WORDS]);
    let held = entry(&record, RULE, 1, 0);
    let mut book = held.clone();
    let (at, count, words) = (book.as_mut_ptr(), OVER as u64 + 1, pool.as_mut_ptr());
    // SAFETY: pointers and lengths belong together, and the buffers are apart.
    let (lookup, publish, add) = unsafe {
        let lookup = (exports.lookup)(ARBITER, at, ENTRY, count, from, size, RULE);
        let publish = (exports.publish)(ARBITER, at, ENTRY, count, from, size, RULE);
        let add =
            (exports.add)(ARBITER, at, ENTRY, count, from, size, words, NODE_WORDS, RULE, LIMIT, 0, 1, OFF, UNREAD);
        (lookup, publish, add)
    };
    if book != held || pool != [0; NODE_WORDS] {
        return Err("a large count: something was written".to_string());
    }
    Ok(vec![
        ("lookup, count", (17, 0), bare(lookup.code, lookup.index)),
        ("publish, count", (17, 0), bare(publish.code, publish.index)),
        ("add, count", (17, 0), bare(add.code, add.index)),
    ])
}

/// A budget, a share and an allowance that cut short would be 0: refused by check 10; so many games that cut short they
/// would be one: refused by check 23. Nothing is written.
fn large_budgets(exports: &Exports) -> Result<Vec<Tried>, String> {
    let record = hex::read(DRAWN).expect("hexadecimal");
    let (from, size, mut pool, mut book) = (record.as_ptr(), record.len(), [0; NODE_WORDS], [0; ENTRY]);
    let (at, words, over) = (book.as_mut_ptr(), pool.as_mut_ptr(), OVER as u64);
    let (shares, none) = (SHARES.map(|share| over * share), [0; MOST_GAMES]);
    // SAFETY: pointers and lengths belong together, and the buffers are apart.
    let tried = unsafe {
        let search = (exports.search)(from, size, words, NODE_WORDS, RULE, LIMIT, over, 1, OFF, UNREAD);
        let full = (exports.full)(from, size, words, NODE_WORDS, LIMIT, over, 1, OFF, UNREAD);
        let add =
            (exports.add)(ARBITER, at, ENTRY, 0, from, size, words, NODE_WORDS, RULE, LIMIT, over, 1, OFF, UNREAD);
        let share = (exports.games)(from, size, words, NODE_WORDS, &shares, RULE, LIMIT, 0, 1, OFF, UNREAD);
        let allowance = (exports.games)(from, size, words, NODE_WORDS, &none, RULE, LIMIT, over, 1, OFF, UNREAD);
        let players =
            |games, x, o| (exports.simulate)(from, size, words, NODE_WORDS, SEED, games, LIMIT, x, o, 1, OFF, UNREAD);
        vec![
            ("search, budget", (10, 0), searched(search)),
            ("full, budget", (10, 0), judged(full)),
            ("add, budget", (10, 0), added(add, 0, &[])),
            ("games, share", (10, 0), judged_together(share)),
            ("games, allowance", (10, 0), judged_together(allowance)),
            ("simulate, X's budget", (10, 0), simulated(players(1, over, 0))),
            ("simulate, O's budget", (10, 0), simulated(players(1, 0, over))),
            ("simulate, games", (23, 0), simulated(players(over + 1, 0, 0))),
        ]
    };
    if book != [0; ENTRY] || pool != [0; NODE_WORDS] {
        return Err("a large budget: something was written".to_string());
    }
    Ok(tried)
}

/// Whole records of empty games, so many that cut short their bytes would be no multiple of a record's or they would be
/// one: refused by check 20, and nothing is written.
fn many_games(exports: &Exports, long: &mut Region) -> Result<Vec<Tried>, String> {
    let mut pool = [0; NODE_WORDS * 100];
    let (words, size) = (pool.as_mut_ptr(), pool.len());
    let mut tried = Vec::new();
    for length in [OVER.next_multiple_of(LENGTH), LENGTH * (OVER + 1)] {
        long.lend_long(length, &Position::start().write());
        // SAFETY: pointers and lengths belong together, and the buffers are apart.
        let games =
            unsafe { (exports.games)(long.pointer(), length, words, size, &SHARES, RULE, LIMIT, 1, 1, OFF, UNREAD) };
        long.unchanged(LENGTH)?;
        tried.push(("games, number", (20, 0), judged_together(games)));
    }
    if pool != [0; NODE_WORDS * 100] {
        return Err("many games: something was written".to_string());
    }
    Ok(tried)
}

/// Pools that cut short would be of one node: refused by check 9, and nothing is written.
fn long_pools(exports: &Exports, pool: &mut Region) -> Result<Vec<Tried>, String> {
    let record = Position::start().write();
    let (from, size) = (record.as_ptr(), record.len());
    let mut tried = Vec::new();
    // One is short if its words are cut to 32 bits, the other if its nodes are.
    for length in [OVER + NODE_WORDS, NODE_WORDS * (OVER + 1)] {
        pool.lend_long(4 * length, &[]);
        let words = pool.pointer() as *mut u32;
        // SAFETY: pointers and lengths belong together, and the buffers are apart.
        let (search, full, add, games, players) = unsafe {
            let search = (exports.search)(from, size, words, length, RULE, LIMIT, 1, 1, OFF, UNREAD);
            let full = (exports.full)(from, size, words, length, LIMIT, 1, 1, OFF, UNREAD);
            let book = std::ptr::null_mut();
            let add = (exports.add)(ARBITER, book, 0, 0, from, size, words, length, RULE, LIMIT, 1, 1, OFF, UNREAD);
            let games = (exports.games)(from, size, words, length, &SHARES, RULE, LIMIT, 1, 1, OFF, UNREAD);
            let players = (exports.simulate)(from, size, words, length, SEED, 1, LIMIT, 1, 1, 1, OFF, UNREAD);
            (search, full, add, games, players)
        };
        pool.unchanged(0)?;
        tried.extend([
            ("search, pool", (9, 0), searched(search)),
            ("full, pool", (9, 0), judged(full)),
            ("add, pool", (9, 0), added(add, 0, &[])),
            ("games, pool", (9, 0), judged_together(games)),
            ("simulate, pool", (9, 0), simulated(players)),
        ]);
    }
    Ok(tried)
}
