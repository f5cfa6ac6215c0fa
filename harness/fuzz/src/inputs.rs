//! Calls to try: the generator's, the same with bytes and settings damaged, and bytes at random.

use calls::games::MOST_GAMES;
use calls::table::{LARGEST_BUDGET, LARGEST_POOL};
use calls::{BookCall, Call, Games, Kind, Stay, Who};
use oracle::generate::{self, Random};

/// The longest record, list of moves, output and book.
pub const LONGEST: usize = 4_096;
/// The largest pool, in nodes.
pub const MOST_NODES: u64 = 2 * LARGEST_POOL;
/// The most expansions by the pool's nodes, so that every call ends soon: with a few hundred nodes it does so
/// by itself.
const FEW_NODES: u64 = 300;
const MANY_NODES: u64 = 3_276;
const BUDGET_OF_SOME: u64 = 999_983;
const BUDGET_OF_MANY: u64 = 4_999;
/// With up to so many nodes the searches of simulated players end soon, whatever they may spend.
const NODES_OF_PLAYERS: u64 = 20;

/// A list of calls. Half of those that stand alone are changed, of a book's lines one in six.
pub fn list(random: &mut Random) -> Vec<Call> {
    let mut list = generate::any_list(random, &Kind::ALL);
    let of_so_many = if list.len() == 1 { 8 } else { 24 };
    for call in &mut list {
        match random.below(of_so_many) {
            0..=2 => damage(random, call),
            3 => scramble(random, call),
            _ => (),
        }
        bound(call);
        enlarge(random, call);
    }
    list
}

/// One or two parts of the call changed.
fn damage(random: &mut Random, call: &mut Call) {
    for _ in 0..1 + random.below(2) {
        if let Some(stay) = call.stay_mut().filter(|_| random.once_in(4)) {
            *stay = Stay::Margin(generate::no_margin(random));
            continue;
        }
        match (random.below(3), &mut *call) {
            (0, Call::Replay { moves, .. }) => damage_bytes(random, moves),
            (0, Call::Search { rule, pool, limit, budget, interval, .. }) => {
                *one_of(random, [rule, pool, limit, budget, interval]) = number(random)
            }
            (0, Call::Full { pool, limit, budget, interval, .. }) => {
                *one_of(random, [pool, limit, budget, interval]) = number(random)
            }
            (0, Call::Book(BookCall::Add { rule, pool, limit, budget, interval, .. })) => {
                *one_of(random, [rule, pool, limit, budget, interval]) = number(random)
            }
            (0, Call::Games(games)) => *one_of(random, games.numbers()) = number(random),
            (0, Call::Simulate(call)) => *one_of(random, call.numbers()) = number(random),
            (0, Call::Referee { rule, .. }) => *rule = number(random),
            (0, Call::Book(BookCall::Lookup { rule, .. } | BookCall::Publish { rule, .. })) => *rule = number(random),
            (1, Call::Book(line)) if line.asked().is_some() => any_caller(random, line),
            (0, Call::Book(BookCall::Set(book))) => book.count = number(random),
            (0, Call::Sheets { second, .. }) => damage_bytes(random, second),
            (1, Call::Moves { output, .. } | Call::Replay { output, .. } | Call::Sheets { output, .. }) => {
                *output = length(random)
            }
            (_, Call::Sheets { first, second, .. }) => {
                damage_bytes(random, first);
                second.clone_from(first)
            }
            (_, any) => {
                if let Some(bytes) = first_of(any) {
                    damage_bytes(random, bytes)
                }
            }
        }
    }
}

/// Everything at random.
fn scramble(random: &mut Random, call: &mut Call) {
    if let Some(first) = first_of(call) {
        *first = bytes(random);
    }
    if let Some(stay) = call.stay_mut() {
        *stay = if random.once_in(2) { Stay::Off } else { Stay::margin(any_margin(random)) };
    }
    match call {
        Call::Moves { output, .. } => *output = length(random),
        Call::Replay { moves, output, .. } => (*moves, *output) = (bytes(random), length(random)),
        Call::Referee { rule, .. } => *rule = number(random),
        Call::Search { rule, pool, limit, budget, interval, .. } => {
            [rule, pool, limit, budget, interval].into_iter().for_each(|n| *n = number(random))
        }
        Call::Full { pool, limit, budget, interval, .. } => {
            [pool, limit, budget, interval].into_iter().for_each(|n| *n = number(random))
        }
        Call::Sheets { first, second, output } => {
            *second = if random.once_in(2) { bytes(random) } else { first.clone() };
            *output = length(random)
        }
        Call::Book(line) => scramble_line(random, line),
        Call::Games(games) => games.numbers().into_iter().for_each(|n| *n = number(random)),
        Call::Simulate(call) => call.numbers().into_iter().for_each(|n| *n = number(random)),
    }
}

/// All but the record or the bytes of a book, which are at random by then.
fn scramble_line(random: &mut Random, line: &mut BookCall) {
    any_caller(random, line);
    match line {
        BookCall::Add { rule, pool, limit, budget, interval, .. } => {
            [rule, pool, limit, budget, interval].into_iter().for_each(|n| *n = number(random))
        }
        BookCall::Lookup { rule, .. } | BookCall::Publish { rule, .. } => *rule = number(random),
        BookCall::Set(book) => book.count = number(random),
        BookCall::New { .. } | BookCall::Dump => (),
    }
}

/// Either caller, if there is one.
fn any_caller(random: &mut Random, line: &mut BookCall) {
    if let BookCall::Add { who, .. } | BookCall::Lookup { who, .. } | BookCall::Publish { who, .. } = line {
        *who = random.pick(&Who::ALL);
    }
}

/// The record, the records, the first sheet or the bytes of a book, if there are any.
fn first_of(call: &mut Call) -> Option<&mut Vec<u8>> {
    match call {
        Call::Moves { record, .. }
        | Call::Replay { record, .. }
        | Call::Search { record, .. }
        | Call::Full { record, .. }
        | Call::Referee { record, .. }
        | Call::Book(
            BookCall::Add { record, .. } | BookCall::Lookup { record, .. } | BookCall::Publish { record, .. },
        ) => Some(record),
        Call::Sheets { first, .. } => Some(first),
        Call::Games(games) => Some(&mut games.records),
        Call::Simulate(call) => Some(&mut call.record),
        Call::Book(BookCall::Set(book)) => Some(&mut book.bytes),
        Call::Book(BookCall::New { .. } | BookCall::Dump) => None,
    }
}

fn damage_bytes(random: &mut Random, bytes: &mut Vec<u8>) {
    let length = bytes.len();
    match random.below(6) {
        0 => bytes.truncate(random.index(length + 1)),
        1 => bytes.extend((0..1 + random.below(40)).map(|_| random.byte())),
        2 => *bytes = self::bytes(random),
        _ if length == 0 => (),
        3 => bytes[random.index(length)] = random.byte(),
        4 => bytes.rotate_left(random.index(length)),
        _ => {
            for _ in 0..1 + random.below(3) {
                bytes[random.index(length)] ^= 1 << random.below(8);
            }
        }
    }
}

fn bytes(random: &mut Random) -> Vec<u8> {
    (0..length(random)).map(|_| random.byte()).collect()
}

/// A margin that is taken, or none that is; as one that is not read, it may be either.
pub fn any_margin(random: &mut Random) -> f64 {
    match generate::stay(random) {
        Stay::Margin(bits) => f64::from_bits(bits),
        Stay::Off => f64::from_bits(generate::no_margin(random)),
    }
}

/// A length: a record's most often, now and then none, or the longest.
fn length(random: &mut Random) -> usize {
    match random.below(12) {
        0 => 0,
        1 => random.index(LONGEST + 1),
        2 => LONGEST,
        3..=6 => random.index(200),
        _ => 21,
    }
}

/// A number of any size, the largest now and then.
fn number(random: &mut Random) -> u64 {
    match random.below(10) {
        0 => u64::MAX,
        1 => 1 << random.below(64),
        2 => (1 << random.below(64)) - 1,
        _ => random.word() >> random.below(64),
    }
}

/// Bounds a call's work and its pool: no pool is lent that is larger than twice what the library takes.
fn bound(call: &mut Call) {
    if let Call::Search { pool, budget, .. }
    | Call::Full { pool, budget, .. }
    | Call::Book(BookCall::Add { pool, budget, .. }) = call
    {
        *pool %= MOST_NODES + 1;
        if *budget <= LARGEST_BUDGET && *pool > FEW_NODES {
            *budget %= most_expansions(*pool);
        }
    }
    if let Call::Games(games) = call {
        bound_games(games);
    }
    if let Call::Simulate(call) = call {
        call.pool %= MOST_NODES + 1;
        generate::keep_short(call);
    }
}

/// Now and then the largest budget or one more, or the largest allowance and share, where there are few nodes.
fn enlarge(random: &mut Random, call: &mut Call) {
    if !random.once_in(8) {
        return;
    }
    match call {
        Call::Search { pool, budget, .. }
        | Call::Full { pool, budget, .. }
        | Call::Book(BookCall::Add { pool, budget, .. })
            if *pool <= FEW_NODES =>
        {
            *budget = LARGEST_BUDGET + random.below(2);
        }
        Call::Games(games) if games.part() <= FEW_NODES => {
            games.allowance = LARGEST_BUDGET;
            games.shares = [0; MOST_GAMES];
            games.shares[0] = LARGEST_BUDGET;
        }
        Call::Simulate(call) if call.is_finished() || call.pool <= NODES_OF_PLAYERS => {
            call.budgets[random.index(2)] = LARGEST_BUDGET + random.below(2);
        }
        _ => (),
    }
}

fn most_expansions(nodes: u64) -> u64 {
    if nodes > MANY_NODES {
        BUDGET_OF_MANY
    } else {
        BUDGET_OF_SOME
    }
}

/// The allowance goes by a part. Where it is made smaller, so are the shares.
fn bound_games(games: &mut Games) {
    games.pool %= MOST_NODES + 1;
    let (part, most) = (games.part(), most_expansions(games.part()));
    if games.allowance <= LARGEST_BUDGET && part > FEW_NODES && games.allowance >= most {
        games.allowance %= most;
        let even = games.allowance / games.count() as u64;
        games.shares.iter_mut().for_each(|share| *share = even.min(*share));
    }
}

/// One of several, to be changed.
fn one_of<'a, const N: usize>(random: &mut Random, choices: [&'a mut u64; N]) -> &'a mut u64 {
    let at = random.index(N);
    choices.into_iter().nth(at).expect("the index is below the length")
}
