//! Calls at random, the same for the same seed: records reached by play and accepted ones that no
//! game reaches, damaged ones, right and wrong moves, pairs of sheets, settings in and out of range.
//! The lines of a book come as lists (`book`), which hold together; every other call is a list of its own.
//! Beside them records that try loading place by place (`reading`) and free choice (`choices`).

pub mod book;
pub mod choices;
mod damaged;
mod games;
mod margins;
mod moves;
mod positions;
mod random;
pub mod reading;
mod settings;
mod sheets;
mod simulations;

pub use damaged::{any_bytes, damage, Damage};
pub use margins::{no_margin, stay};
pub use positions::{ending, late, reachable, reached};
pub use random::Random;
pub use simulations::keep_short;

use calls::record::{Position, LENGTH};
use calls::table::{open_cells, MOVES_ROOM, RECORD_ROOM};
use calls::{Call, Kind};
use settings::Settings;

/// Of the times that the book's kind is drawn one in so many gives a list, which has about so many lines.
const LINES_OF_A_BOOK: u64 = 16;

/// A list of one of the given kinds; about as many lines of each kind come.
pub fn any_list(random: &mut Random, kinds: &[Kind]) -> Vec<Call> {
    loop {
        let kind = random.pick(kinds);
        if kind != Kind::Book || random.once_in(LINES_OF_A_BOOK) {
            return list(random, kind);
        }
    }
}

/// A list of the given kind.
pub fn list(random: &mut Random, kind: Kind) -> Vec<Call> {
    match kind {
        Kind::Book => book::list(random).into_iter().map(Call::Book).collect(),
        kind => vec![call(random, kind)],
    }
}

/// A call of the given kind, which is not the book's.
pub fn call(random: &mut Random, kind: Kind) -> Call {
    match kind {
        Kind::Moves => {
            let record = record(random);
            Call::Moves { record, output: output(random, MOVES_ROOM) }
        }
        Kind::Replay => {
            let record = record(random);
            let moves = match <&[u8; LENGTH]>::try_from(record.as_slice()) {
                Ok(bytes) if positions::is_accepted(&Position::read(bytes)) => moves::moves(random, bytes),
                _ => (0..random.below(4)).map(|_| random.byte()).collect(),
            };
            Call::Replay { record, moves, output: output(random, RECORD_ROOM) }
        }
        Kind::Search => {
            let (record, Settings { rule, pool, limit, budget, interval, stay }) = search(random);
            Call::Search { record, rule, pool, limit, budget, interval, stay }
        }
        Kind::Full => {
            let (record, Settings { pool, limit, budget, interval, stay, .. }) = search(random);
            Call::Full { record, pool, limit, budget, interval, stay }
        }
        Kind::Referee => referee(random),
        Kind::Sheets => {
            let (first, second) = sheets::sheets(random);
            Call::Sheets { first, second, output: output(random, RECORD_ROOM) }
        }
        Kind::Games => Call::Games(games::games(random)),
        Kind::Simulate => Call::Simulate(simulations::simulation(random)),
        Kind::Book => unreachable!("a book's lines are a list"),
    }
}

/// Any record: accepted ones most often.
fn record(random: &mut Random) -> Vec<u8> {
    match random.below(10) {
        0..=2 => damaged::damaged(random),
        3..=5 => positions::reachable(random).write().to_vec(),
        6 => positions::ending(random).write().to_vec(),
        _ => positions::accepted(random).write().to_vec(),
    }
}

/// The length of the lent buffer: the usual one most often, else around it.
fn output(random: &mut Random, usual: usize) -> usize {
    match random.below(10) {
        0 => random.pick(&[0, 1, usual - 1]),
        1 => random.index(usual),
        2 => usual + random.index(60),
        _ => usual,
    }
}

/// The record and the settings of a search.
fn search(random: &mut Random) -> (Vec<u8>, Settings) {
    let record = match random.below(8) {
        0..=2 => positions::ending(random).write().to_vec(),
        3..=5 => positions::late(random).write().to_vec(),
        _ => record(random),
    };
    let small = match <&[u8; LENGTH]>::try_from(record.as_slice()) {
        Ok(bytes) => open_cells(&Position::read(bytes)) > 14,
        Err(_) => false,
    };
    (record, settings::settings(random, small))
}

/// Endings most often, so that many are small enough to be answered.
fn referee(random: &mut Random) -> Call {
    let record = match random.below(8) {
        0..=5 => positions::ending(random).write().to_vec(),
        _ => record(random),
    };
    Call::Referee { record, rule: settings::rule(random) }
}
