//! The library's own text, the wrapper's declarations and the C header, held together: same structs, same functions,
//! same numbers.

use std::collections::BTreeMap;
use ultimattt::{Cause, Refusal, Rule};
use ultimattt::{BUDGET_MOST, ENTRY_BYTES, GAMES_MOST, INFINITY, INTERVAL_MOST};
use ultimattt::{MOVES_BYTES, NODE_WORDS, POOL_MOST, RECORD_BYTES, SIMULATED_MOST};

const LIBRARY: &str = concat!(
    include_str!("../../../crates/ultimattt/src/exports.rt"),
    include_str!("../../../crates/ultimattt/src/book_exports.rt"),
    include_str!("../../../crates/ultimattt/src/games_exports.rt"),
    include_str!("../../../crates/ultimattt/src/players_exports.rt"),
    include_str!("../../../crates/ultimattt_c/src/exports.rt"),
    include_str!("../../../crates/ultimattt_c/src/book_exports.rt"),
    include_str!("../../../crates/ultimattt_c/src/games_exports.rt"),
    include_str!("../../../crates/ultimattt_c/src/players_exports.rt"),
);
/// Has the number of games that the exports name.
const CHECKS: &str = include_str!("../../../crates/games_checks/src/lib.rt");
const WRAPPER: &str = include_str!("../src/ffi.rs");
const HEADER: &str = include_str!("../../../include/ultimattt.h");

/// Types of C as the wrapper writes them; what holds another comes first.
const TYPES: [(&str, &str); 18] = [
    ("struct uttt_replay_answer", "ReplayAnswer"),
    ("struct uttt_moves_answer", "MovesAnswer"),
    ("struct uttt_referee_answer", "RefereeAnswer"),
    ("struct uttt_search_answer", "SearchAnswer"),
    ("struct uttt_full_answer", "FullAnswer"),
    ("struct uttt_games_answer", "GamesAnswer"),
    ("struct uttt_simulate_answer", "SimulateAnswer"),
    ("struct uttt_lookup_answer", "LookupAnswer"),
    ("struct uttt_add_answer", "AddAnswer"),
    ("struct uttt_publish_answer", "PublishAnswer"),
    ("struct uttt_result", "ResultFields"),
    ("const uint8_t *", "*const u8 "),
    ("uint8_t *", "*mut u8 "),
    ("uint32_t *", "*mut u32 "),
    ("uint32_t", "u32"),
    ("uint64_t", "u64"),
    ("size_t", "usize"),
    ("double", "f64"),
];

/// For each name, its parts in order.
type Declared = BTreeMap<String, Vec<String>>;

/// The exports' text, with the number of games for its name.
fn library() -> String {
    let (_, after) = CHECKS.split_once("const MOST_GAMES: usize = ").expect("the constant stands there");
    let (most, _) = after.split_once(';').expect("a constant ends");
    LIBRARY.replace("MOST_GAMES", most)
}

/// The header without comments, its types as the wrapper writes them.
fn header() -> String {
    let mut text = String::new();
    let mut rest = HEADER;
    while let Some((before, after)) = rest.split_once("/*") {
        text.push_str(before);
        rest = after.split_once("*/").expect("a comment ends").1;
    }
    text.push_str(rest);
    TYPES.iter().fold(text, |text, (c, rust)| text.replace(c, rust))
}

/// What stands between `open` and `close`, for each name after `key`, and the text after it.
fn blocks<'a>(text: &'a str, key: &str, open: char, close: char) -> Vec<(&'a str, &'a str, &'a str)> {
    let pieces = text.split(key).skip(1);
    let block = |piece: &'a str| {
        let (name, rest) = piece.split_once(open)?;
        let (inside, after) = rest.split_once(close)?;
        Some((name.trim(), inside, after))
    };
    pieces.filter_map(block).collect()
}

/// The last word and the type ahead of it: `u64 index`. An array's length, which has a name, goes into the type.
fn c_part(text: &str) -> Option<(&str, String)> {
    let (kind, name) = text.trim().rsplit_once(' ')?;
    let Some((array, length)) = name.split_once("[UTTT_") else {
        return Some((name, kind.trim().to_string()));
    };
    Some((array, format!("[{}; {}]", kind.trim(), number(length.trim_end_matches(']')))))
}

fn rust_part(text: &str) -> Option<(&str, &str)> {
    let (name, kind) = text.trim().trim_start_matches("pub ").split_once(": ")?;
    Some((name, kind))
}

fn rust_structs(text: &str) -> Declared {
    let fields = |inside: &str| inside.split(',').filter_map(rust_part).map(|(n, k)| format!("{n}: {k}")).collect();
    blocks(text, "pub struct ", '{', '}')
        .into_iter()
        .map(|(name, inside, _)| (name.to_string(), fields(inside)))
        .collect()
}

fn c_structs(text: &str) -> Declared {
    let names = [
        "ReplayAnswer",
        "MovesAnswer",
        "RefereeAnswer",
        "ResultFields",
        "SearchAnswer",
        "FullAnswer",
        "GamesAnswer",
        "SimulateAnswer",
        "LookupAnswer",
        "AddAnswer",
        "PublishAnswer",
    ];
    let fields = |name: &str| {
        let (_, after) = text.split_once(&format!("\n{name} {{")).expect("the header has each struct");
        let (inside, _) = after.split_once('}').expect("a struct ends");
        inside.split(';').filter_map(c_part).map(|(n, k)| format!("{n}: {k}")).collect()
    };
    names.iter().map(|name| (name.to_string(), fields(name))).collect()
}

/// A type of the library as C sees it: a slice is a pointer and a length, a lent number or array a pointer.
fn passed(kind: &str) -> Vec<String> {
    let (pointer, of) = match kind {
        "&[u8]" => ("*const", "u8"),
        "&mut [u8]" => ("*mut", "u8"),
        "&mut [u32]" => ("*mut", "u32"),
        "&mut u32" => return vec!["*mut u32".to_string()],
        "&[u64; 8]" => return vec!["*const [u64; 8]".to_string()],
        _ => return vec![kind.to_string()],
    };
    vec![format!("{pointer} {of}"), "usize".to_string()]
}

/// The types of the parameters, then that of the answer.
fn rust_functions(text: &str, key: &str) -> Declared {
    let declared = blocks(text, key, '(', ')').into_iter().map(|(name, inside, after)| {
        let mut kinds: Vec<String> = inside.split(',').filter_map(rust_part).flat_map(|(_, k)| passed(k)).collect();
        let answer = after.trim_start_matches(" -> ").split([';', '\n']).next().expect("an answer's type");
        kinds.push(answer.to_string());
        (name.to_string(), kinds)
    });
    declared.collect()
}

/// The types of a prototype's parameters. An array among them is lent.
fn c_parameters(text: &str) -> Vec<String> {
    text.split(',').filter_map(c_part).map(|(_, kind)| kind.replace("[const ", "*const [")).collect()
}

fn c_functions(text: &str) -> Declared {
    let prototypes = text.split(';').filter_map(|piece| piece.trim().strip_suffix(')'));
    let declared = prototypes.filter_map(|piece| {
        let (head, inside) = piece.split_once('(')?;
        let (name, answer) = c_part(head.lines().last()?)?;
        let mut kinds = c_parameters(inside);
        kinds.push(answer);
        Some((name.to_string(), kinds))
    });
    declared.collect()
}

#[test]
fn structs() {
    let library = rust_structs(&library());
    assert_eq!(library.len(), 11);
    assert_eq!(rust_structs(WRAPPER), library);
    assert_eq!(c_structs(&header()), library);
}

#[test]
fn functions() {
    let library = rust_functions(&library(), "pub extern \"C\" fn ");
    assert_eq!(library.len(), 11);
    assert_eq!(rust_functions(WRAPPER, "pub fn "), library);
    assert_eq!(c_functions(&header()), library);
}

/// The header's number of a name, from an enum or a #define.
fn number(name: &str) -> u64 {
    let text = header();
    let after = [format!(" UTTT_{name} = "), format!("#define UTTT_{name} ")];
    let found = after.iter().find_map(|key| text.split_once(key.as_str())).expect("the header has the name").1;
    let digits = found.trim_start_matches("UINT64_C(").trim_start_matches("UINT32_C(");
    digits.split(|c: char| !c.is_ascii_digit()).next().and_then(|n| n.parse().ok()).expect("a number")
}

#[test]
fn refusals() {
    let named = [
        ("RECORD_LENGTH", Refusal::RecordLength),
        ("RECORD_BITS", Refusal::RecordBits),
        ("CELL_COUNTS", Refusal::CellCounts),
        ("BOARD_WON_TWICE", Refusal::BoardWonTwice),
        ("GAME_WON_WRONGLY", Refusal::GameWonWrongly),
        ("TARGET_DONE", Refusal::TargetDone),
        ("OUTPUT_SHORT", Refusal::OutputShort),
        ("POOL_EMPTY", Refusal::PoolEmpty),
        ("POOL_TOO_LARGE", Refusal::PoolTooLarge),
        ("SETTING_RANGE", Refusal::SettingRange),
        ("OUT_OF_BOUNDS", Refusal::OutOfBounds(0)),
        ("GAME_OVER", Refusal::GameOver(0)),
        ("WON_BOARD", Refusal::WonBoard(0)),
        ("WRONG_BOARD", Refusal::WrongBoard(0)),
        ("NOT_EMPTY", Refusal::NotEmpty(0)),
        ("TOO_MANY_EMPTY", Refusal::TooManyEmpty),
        ("BOOK_SIZE", Refusal::BookSize),
        ("BOOK_FULL", Refusal::BookFull),
        ("TRAINER_WRITES", Refusal::TrainerWrites),
        ("GAMES_OR_SHARES", Refusal::GameCount),
        ("GAMES_OR_SHARES", Refusal::SharesOverAllowance),
        ("MARGIN", Refusal::Margin),
        ("IMPOSSIBLE_CHOICE", Refusal::ImpossibleChoice),
        ("GAMES_NUMBER", Refusal::GamesNumber),
    ];
    for (name, refusal) in named {
        assert_eq!(number(name), u64::from(refusal.number()), "{name}");
    }
}

#[test]
fn verdicts_causes_and_rules() {
    assert_eq!(["OK", "UNKNOWN", "NOT_HELD", "TRUE", "FALSE"].map(number), [0, 0, 0, 1, 2]);
    let full = ["FULL_UNKNOWN", "FULL_WIN", "FULL_LOSS", "FULL_DRAW", "FULL_AT_LEAST_DRAW", "FULL_AT_MOST_DRAW"];
    assert_eq!(full.map(number), [0, 1, 2, 3, 4, 5]);
    let causes = [Cause::Solved, Cause::BudgetSpent, Cause::PoolShort, Cause::OverLimit];
    assert_eq!(["SOLVED", "BUDGET_SPENT", "POOL_SHORT", "OVER_LIMIT"].map(number), causes.map(|c| c.number().into()));
    let rules = [Rule::DrawLostByMover, Rule::DrawFalse, Rule::DrawTrue];
    assert_eq!(["DRAW_LOST_BY_MOVER", "DRAW_FALSE", "DRAW_TRUE"].map(number), rules.map(Rule::number));
}

#[test]
fn sizes_and_ranges() {
    let sizes = [RECORD_BYTES, MOVES_BYTES, ENTRY_BYTES, NODE_WORDS, POOL_MOST, GAMES_MOST].map(|n| n as u64);
    let names = ["RECORD_BYTES", "MOVES_BYTES", "ENTRY_BYTES", "NODE_WORDS", "POOL_MOST", "GAMES_MOST"];
    assert_eq!(names.map(number), sizes);
    let ends = [BUDGET_MOST, INTERVAL_MOST, SIMULATED_MOST, INFINITY.into()];
    assert_eq!(["BUDGET_MOST", "INTERVAL_MOST", "SIMULATED_MOST", "INFINITY"].map(number), ends);
}
