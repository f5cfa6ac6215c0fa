//! Free choice as it can't be and as it can, in every call that loads a record, with a later check that refuses and
//! without. Which check answers is decided in `calls::table`.

use super::damaged::{damaged_by, Damage};
use super::positions::{is_accepted, one_done};
use super::random::Random;
use super::reading::turned;
use super::settings::Settings;
use calls::book::{entry, MARK};
use calls::games::MOST_GAMES;
use calls::record::{Position, EMPTY, LENGTH, O, X};
use calls::table::{LARGEST_BUDGET, LARGEST_RULE, MOVES_ROOM, RECORD_ROOM};
use calls::{Book, BookCall, Call, Games, Simulation, Stay, Who};

/// How many records that check 22 refuses are drawn.
const DRAWN: usize = 8;
/// A board in play with one empty cell. A position of nine of them is not too large for the referee.
const ONE_EMPTY: [u8; 9] = [EMPTY, O, X, X, O, O, O, X, X];
/// The first and the last bit of a record.
const SIDE: usize = 0;
const LAST_BIT: usize = 8 * LENGTH - 1;

/// What stands beside the record that is tried: the empty game, one with a done board, and those that 3 and 6 refuse.
struct Others {
    start: Vec<u8>,
    free: Vec<u8>,
    miscounted: Vec<u8>,
    done_target: Vec<u8>,
}

/// All of them, the same for the same numbers.
pub fn lists(random: &mut Random) -> Vec<Vec<Call>> {
    let start = Position::start().write().to_vec();
    let miscounted = turned(&start, SIDE);
    let others = Others { free: free(random), done_target: damaged_by(random, Damage::DoneTarget), start, miscounted };
    records(random).iter().flat_map(|record| lists_of(record, &others)).collect()
}

/// The empty game; each record that 22 refuses, and the same with board 0 as its target, which is accepted, with the
/// other side to move and with a last bit of 1; free choice by one done board.
fn records(random: &mut Random) -> Vec<Vec<u8>> {
    let nine = Position { cells: [ONE_EMPTY; 9], ..Position::start() }.write().to_vec();
    let drawn: Vec<Vec<u8>> = (0..DRAWN).map(|_| damaged_by(random, Damage::Choice)).collect();
    let mut records = vec![Position::start().write().to_vec()];
    for choice in drawn.into_iter().chain([nine]) {
        let position = Position::read(choice.as_slice().try_into().expect("a record's bytes"));
        let named = Position { target: 0, ..position }.write().to_vec();
        records.extend([turned(&choice, SIDE), turned(&choice, LAST_BIT), named, choice, free(random)]);
    }
    records
}

/// An accepted record with free choice by one done board.
fn free(random: &mut Random) -> Vec<u8> {
    loop {
        let position = one_done(random);
        if is_accepted(&position) {
            return position.write().to_vec();
        }
    }
}

/// Settings that are taken, then some of which one is refused.
fn settings() -> [Settings; 6] {
    let taken = Settings { rule: 0, pool: 82, limit: u64::MAX, budget: 1, interval: 1, stay: Stay::Off };
    [
        taken,
        Settings { pool: 0, ..taken },
        Settings { rule: LARGEST_RULE + 1, ..taken },
        Settings { budget: LARGEST_BUDGET + 1, ..taken },
        Settings { interval: 0, ..taken },
        Settings { stay: Stay::margin(f64::NAN), ..taken },
    ]
}

fn lists_of(record: &[u8], others: &Others) -> Vec<Vec<Call>> {
    let lone = outputs(record).into_iter().chain(searches(record)).chain(games(record, others).map(Call::Games));
    let lone = lone.chain(simulations(record).map(Call::Simulate));
    let books = books(record, others).into_iter().map(|list| list.into_iter().map(Call::Book).collect());
    lone.map(|call| vec![call]).chain(books).collect()
}

/// Replay and legal moves with enough room, with too little, and with a move that is none; the referee.
fn outputs(record: &[u8]) -> [Call; 7] {
    let record = || record.to_vec();
    let replay = |moves, output| Call::Replay { record: record(), moves, output };
    let moves = |output| Call::Moves { record: record(), output };
    let referee = |rule| Call::Referee { record: record(), rule };
    [
        replay(vec![], RECORD_ROOM),
        replay(vec![], RECORD_ROOM - 1),
        replay(vec![0xFF], RECORD_ROOM),
        moves(MOVES_ROOM),
        moves(MOVES_ROOM - 1),
        referee(0),
        referee(LARGEST_RULE + 1),
    ]
}

fn searches(record: &[u8]) -> impl Iterator<Item = Call> + '_ {
    settings().into_iter().flat_map(|Settings { rule, pool, limit, budget, interval, stay }| {
        let (record, again) = (record.to_vec(), record.to_vec());
        let full = Call::Full { record: again, pool, limit, budget, interval, stay };
        [Call::Search { record, rule, pool, limit, budget, interval, stay }, full]
    })
}

/// A game with settings that are taken, then with one that is refused: a pool, either budget, an interval, a margin and
/// the number of games.
fn simulations(record: &[u8]) -> impl Iterator<Item = Simulation> {
    let (pool, limit, interval, budgets, stay) = (82, u64::MAX, 1, [1, 0], Stay::Off);
    let taken = Simulation { record: record.to_vec(), seed: 1, games: 1, pool, limit, interval, budgets, stay };
    let same = || taken.clone();
    let refused = [
        Simulation { pool: 0, ..same() },
        Simulation { budgets: [LARGEST_BUDGET + 1, 0], ..same() },
        Simulation { budgets: [0, LARGEST_BUDGET + 1], ..same() },
        Simulation { interval: 0, ..same() },
        Simulation { stay: Stay::margin(f64::NAN), ..same() },
        Simulation { games: 0, ..same() },
    ];
    [taken].into_iter().chain(refused)
}

/// The record alone, as the last of eight, twice, before and behind one that another check refuses, and in nine games;
/// and as the second of two with each setting and with shares above the allowance.
fn games<'a>(record: &'a [u8], others: &'a Others) -> impl Iterator<Item = Games> + 'a {
    let Others { start, miscounted, done_target, .. } = others;
    let rounds: [Vec<&[u8]>; 7] = [
        vec![record],
        vec![start, record, start, record],
        vec![record, done_target],
        vec![done_target, record],
        vec![record, miscounted],
        [vec![start.as_slice(); MOST_GAMES - 1], vec![record]].concat(),
        vec![record; MOST_GAMES + 1],
    ];
    let [taken, ..] = settings();
    let over = Games { shares: [2; MOST_GAMES], ..together(&[start, record], taken) };
    let settings = settings().into_iter().map(move |settings| together(&[start, record], settings));
    rounds.into_iter().map(move |records| together(&records, taken)).chain(settings).chain([over])
}

/// These games, with a part of the setting's nodes for each and its budget as the allowance.
fn together(records: &[&[u8]], settings: Settings) -> Games {
    let Settings { rule, pool, limit, budget: allowance, interval, stay } = settings;
    let pool = pool * records.len() as u64;
    Games { records: records.concat(), rule, pool, limit, allowance, interval, shares: [0; MOST_GAMES], stay }
}

/// A full book that has the record and another, one whose length is wrong, and an empty one.
fn books(record: &[u8], others: &Others) -> [Vec<BookCall>; 3] {
    let whole = [entry(record, 0, 1, MARK), entry(&others.free, 0, 1, MARK)].concat();
    let broken = [&whole[..], &[0]].concat();
    let first = [
        BookCall::Set(Book { bytes: whole, count: 2 }),
        BookCall::Set(Book { bytes: broken, count: 1 }),
        BookCall::New { entries: 1 },
    ];
    first.map(|first| [vec![first], of_a_book(record, others), vec![BookCall::Dump]].concat())
}

/// Lookups, publishes and adds of the record by either caller, under a rule and under none; and of the other record.
fn of_a_book(record: &[u8], others: &Others) -> Vec<BookCall> {
    let (arbiter, no_rule) = (Who::Arbiter, LARGEST_RULE + 1);
    let lookup = |who, record: &[u8], rule| BookCall::Lookup { who, record: record.to_vec(), rule };
    let publish = |who, rule| BookCall::Publish { who, record: record.to_vec(), rule };
    let add = |who, record: &[u8], Settings { rule, pool, limit, budget, interval, stay }| {
        let record = record.to_vec();
        BookCall::Add { who, record, rule, pool, limit, budget, interval, stay }
    };
    let [taken, ..] = settings();
    let mut lines = vec![lookup(arbiter, &others.free, 0), add(arbiter, &others.free, Settings { rule: 1, ..taken })];
    for who in Who::ALL {
        lines.extend([lookup(who, record, 0), lookup(who, record, no_rule)]);
        lines.extend([publish(who, 0), publish(who, no_rule)]);
        lines.extend(settings().map(|settings| add(who, record, settings)));
    }
    lines
}
