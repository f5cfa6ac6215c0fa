//! The calls (MANUAL, Calls), answered by the original: replay by `make_move`, legal moves by
//! `all_moves` (never on a finished position, where there are none: MANUAL, The game), search by
//! `Prover::prove`, into whose descent staying on a line, which is ours, is patched (`prove::pn::stay`). Refusals 1 to
//! 10 and 16 to 23 come from `calls::table`. The original has no full verdict, no referee and no agreed opening: the
//! first is two of its searches and a name of our own (`full`), the others are our own exhaustive value (`value`) and
//! our own reading of two lists (`opening`) over its moves.
//! Nor has it a book: lookup, add and publish are written a second time here, plainly and apart from the proved
//! code (`book_call`), over the book of `calls::book` and the original's searches (`search`). So are games that
//! are judged together (`games`) and simulated players (`players`).

use crate::game::{Game, GameState, Move, MoveError, Player};
use crate::games;
use crate::load;
use crate::players;
use crate::prove::pn::tree::Tree;
use crate::prove::pn::{sizeof_node, Config, ProofResult, Prover};
use crate::prove::Evaluation;
use calls::line::Verdict;
use calls::record::LENGTH;
use calls::table::{self, MOVES_ROOM, RECORD_ROOM};
use calls::{Answer, Book, BookCall, Call, Fields, FullVerdict, Stay, Who};

/// Answers any call; `book` is what the line before left, and is changed by a book's lines alone.
pub fn answer(call: &Call, book: &mut Book) -> Answer {
    match call {
        Call::Moves { record, output } => refused_or(table::output_refusal(record, *output, MOVES_ROOM), || {
            Answer::Moves(legal_moves(accepted(record)))
        }),
        Call::Replay { record, moves, output } => {
            refused_or(table::output_refusal(record, *output, RECORD_ROOM), || match replay(accepted(record), moves) {
                Ok(after) => Answer::Record(after.to_vec()),
                Err((number, index)) => Answer::Refused { number, index },
            })
        }
        Call::Search { record, rule, pool, limit, budget, interval, stay } => {
            refused_or(table::search_refusal(record, *rule, *pool, *budget, *interval, *stay), || {
                Answer::Search(search(accepted(record), *rule, *pool, *limit, *budget, *interval, *stay))
            })
        }
        Call::Full { record, pool, limit, budget, interval, stay } => {
            refused_or(table::full_refusal(record, *pool, *budget, *interval, *stay), || {
                let under = |rule| search(accepted(record), rule, *pool, *limit, *budget, *interval, *stay);
                let (first, second) = (under(1), under(2));
                Answer::Full(full(first.verdict, second.verdict), first, second)
            })
        }
        Call::Referee { record, rule } => refused_or(table::referee_refusal(record, *rule), || {
            let game = load::game(accepted(record));
            Answer::Value(value(&game, *rule, game.player()))
        }),
        Call::Sheets { first, second, output } => refused_or(table::room_refusal(*output, RECORD_ROOM), || {
            let (count, game) = opening(first, second);
            Answer::Opening { count: count as u64, record: load::record(&game).to_vec() }
        }),
        Call::Book(call) => book_call(call, book),
        Call::Games(call) => games::answer(call),
        Call::Simulate(call) => players::answer(call),
    }
}

fn book_call(call: &BookCall, book: &mut Book) -> Answer {
    match call {
        BookCall::Lookup { who, record, rule } => {
            refused_or(table::lookup_refusal(book, record, *rule), || Answer::Found(book.held(*who, record, *rule)))
        }
        BookCall::Publish { who, record, rule } => {
            refused_or(table::publish_refusal(book, *who, record, *rule), || {
                Answer::Published(book.publish(record, *rule))
            })
        }
        BookCall::Add { who, record, rule, pool, limit, budget, interval, stay } => {
            refused_or(table::add_refusal(book, *who, record, *rule, [*pool, *budget, *interval], *stay), || {
                let verdict = book.held(Who::Arbiter, record, *rule).unwrap_or_else(|| {
                    let found = search(accepted(record), *rule, *pool, *limit, *budget, *interval, *stay).verdict;
                    book.store(record, *rule, found);
                    found
                });
                Answer::Added { verdict, count: book.count }
            })
        }
        BookCall::New { .. } | BookCall::Set(_) | BookCall::Dump => call.by_the_tool(book).expect("it is no call"),
    }
}

fn refused_or(refusal: Option<u32>, result: impl FnOnce() -> Answer) -> Answer {
    refusal.map_or_else(result, Answer::refused)
}

/// A record that passed the checks.
fn accepted(record: &[u8]) -> &[u8; LENGTH] {
    record.try_into().expect("check 1 passed")
}

/// The record after the moves, or the first bad move's number in the table and its index.
pub fn replay(record: &[u8; LENGTH], moves: &[u8]) -> Result<[u8; LENGTH], (u32, u64)> {
    let mut game = load::game(record);
    for (index, byte) in moves.iter().enumerate() {
        game = game.make_move(move_of(*byte)).map_err(|e| (number(e), index as u64))?;
    }
    Ok(load::record(&game))
}

/// The move of a byte: board and cell are its two digits.
pub fn move_of(byte: u8) -> Move {
    Move::from_coords((byte / 16).into(), (byte % 16).into())
}

/// How many moves of two lists are played from the empty game until the lists differ, a move is an error
/// or a list ends, and the position then.
pub fn opening(first: &[u8], second: &[u8]) -> (usize, Game) {
    let mut game = Game::new();
    let mut count = 0;
    for (one, other) in first.iter().zip(second) {
        if one != other {
            break;
        }
        let Ok(after) = game.make_move(move_of(*one)) else { break };
        game = after;
        count += 1;
    }
    (count, game)
}

/// What ends an opening.
#[derive(Clone, Copy, Debug, PartialEq, Eq, PartialOrd, Ord)]
pub enum Ending {
    BothEnd,
    FirstEnds,
    SecondEnds,
    Difference,
    /// Both have a move that is an error, of this number.
    Error(u32),
}

/// What ends the opening of two lists.
pub fn ending(first: &[u8], second: &[u8]) -> Ending {
    let (count, game) = opening(first, second);
    match (first.get(count), second.get(count)) {
        (None, None) => Ending::BothEnd,
        (None, Some(_)) => Ending::FirstEnds,
        (Some(_), None) => Ending::SecondEnds,
        (Some(one), Some(other)) if one != other => Ending::Difference,
        (Some(one), Some(_)) => match game.make_move(move_of(*one)) {
            Ok(_) => unreachable!("an opening never ends before a legal move of both"),
            Err(error) => Ending::Error(number(error)),
        },
    }
}

/// The error's number (MANUAL, Turned back).
pub fn number(error: MoveError) -> u32 {
    match error {
        MoveError::OutOfBounds => 11,
        MoveError::GameOver => 12,
        MoveError::WonBoard => 13,
        MoveError::WrongBoard => 14,
        MoveError::NotEmpty => 15,
    }
}

pub fn legal_moves(record: &[u8; LENGTH]) -> Vec<u8> {
    let game = load::game(record);
    if game.game_over() {
        return Vec::new();
    }
    let moves = game.all_moves().map(|m| m.bits()).collect();
    moves
}

/// The setting is off, or a margin that is taken.
pub fn search(
    record: &[u8; LENGTH],
    rule: u64,
    pool: u64,
    limit: u64,
    budget: u64,
    interval: u64,
    stay: Stay,
) -> Fields {
    fields(&result(record, rule, pool, limit, budget, interval, stay))
}

/// The same, and the tree where the search ended.
pub fn search_and_tree(
    record: &[u8; LENGTH],
    rule: u64,
    pool: u64,
    limit: u64,
    budget: u64,
    interval: u64,
    stay: Stay,
) -> (Fields, Tree) {
    let result = result(record, rule, pool, limit, budget, interval, stay);
    (fields(&result), Tree::of(&result.prover))
}

fn result(
    record: &[u8; LENGTH],
    rule: u64,
    pool: u64,
    limit: u64,
    budget: u64,
    interval: u64,
    stay: Stay,
) -> ProofResult {
    let config = Config {
        max_memory: (limit as usize).checked_mul(sizeof_node()),
        rule,
        pool,
        budget,
        interval: interval as usize,
        stay: stay.in_256ths(),
        ..Default::default()
    };
    Prover::prove(&config, &load::game(record))
}

fn fields(result: &ProofResult) -> Fields {
    Fields {
        verdict: match result.result {
            Evaluation::True => Verdict::True,
            Evaluation::False => Verdict::False,
            Evaluation::Unknown => Verdict::Unknown,
        },
        proof: result.proof.into(),
        disproof: result.disproof.into(),
        allocated: result.allocated as u64,
        freed: result.freed as u64,
        proved: result.stats.proved as u64,
        disproved: result.stats.disproved as u64,
        expanded: result.stats.expanded as u64,
        cause: result.cause.into(),
    }
}

/// The full verdict by those under rule 1 and rule 2, as in MANUAL, Draw rules and value, in its order.
pub fn full(first: Verdict, second: Verdict) -> FullVerdict {
    match (first, second) {
        (Verdict::True, _) => FullVerdict::Win,
        (_, Verdict::False) => FullVerdict::Loss,
        (Verdict::False, Verdict::True) => FullVerdict::Draw,
        (Verdict::Unknown, Verdict::True) => FullVerdict::AtLeastDraw,
        (Verdict::False, Verdict::Unknown) => FullVerdict::AtMostDraw,
        (Verdict::Unknown, Verdict::Unknown) => FullVerdict::Unknown,
    }
}

/// The value under a draw rule for the root's side, by looking at everything that can follow: a won
/// position is True for its winner; drawn is lost by its own side to move (rule 0), False (1) or
/// True (2); otherwise the root's side needs one move to True, the other side one to False.
pub fn value(game: &Game, rule: u64, root: Player) -> bool {
    let own = game.player() == root;
    match game.game_state() {
        GameState::Won(winner) => winner == root,
        GameState::Drawn => match rule {
            0 => !own,
            1 => false,
            _ => true,
        },
        GameState::InPlay => {
            let mut after = game.all_moves().map(|m| game.make_move(m).expect("a listed move is legal"));
            if own {
                after.any(|next| value(&next, rule, root))
            } else {
                after.all(|next| value(&next, rule, root))
            }
        }
    }
}
