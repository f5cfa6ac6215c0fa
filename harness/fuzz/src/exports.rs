//! The eleven exports as pointers, so that wrong ones can stand in for them (`wrong`).

use calls::games::MOST_GAMES;
use uttt::ffi;

type Replay = unsafe extern "C" fn(*const u8, usize, *const u8, usize, *mut u8, usize) -> ffi::ReplayAnswer;
type Moves = unsafe extern "C" fn(*const u8, usize, *mut u8, usize) -> ffi::MovesAnswer;
type Referee = unsafe extern "C" fn(*const u8, usize, u64) -> ffi::RefereeAnswer;
type Search =
    unsafe extern "C" fn(*const u8, usize, *mut u32, usize, u64, u64, u64, u64, bool, f64) -> ffi::SearchAnswer;
type Full = unsafe extern "C" fn(*const u8, usize, *mut u32, usize, u64, u64, u64, bool, f64) -> ffi::FullAnswer;
type Sheets = unsafe extern "C" fn(*const u8, usize, *const u8, usize, *mut u8, usize, *mut u32) -> u64;
type Games = unsafe extern "C" fn(
    *const u8,
    usize,
    *mut u32,
    usize,
    *const [u64; MOST_GAMES],
    u64,
    u64,
    u64,
    u64,
    bool,
    f64,
) -> ffi::GamesAnswer;
type Simulate = unsafe extern "C" fn(
    *const u8,
    usize,
    *mut u32,
    usize,
    u64,
    u64,
    u64,
    u64,
    u64,
    u64,
    bool,
    f64,
) -> ffi::SimulateAnswer;
type Lookup = unsafe extern "C" fn(bool, *const u8, usize, u64, *const u8, usize, u64) -> ffi::LookupAnswer;
type Publish = unsafe extern "C" fn(bool, *mut u8, usize, u64, *const u8, usize, u64) -> ffi::PublishAnswer;
type Add = unsafe extern "C" fn(
    bool,
    *mut u8,
    usize,
    u64,
    *const u8,
    usize,
    *mut u32,
    usize,
    u64,
    u64,
    u64,
    u64,
    bool,
    f64,
) -> ffi::AddAnswer;

#[derive(Clone, Copy)]
pub struct Exports {
    pub replay: Replay,
    pub moves: Moves,
    pub referee: Referee,
    pub search: Search,
    pub full: Full,
    pub sheets: Sheets,
    pub games: Games,
    pub simulate: Simulate,
    pub lookup: Lookup,
    pub publish: Publish,
    pub add: Add,
}

/// The proved library's.
pub const LIBRARY: Exports = Exports {
    replay: ffi::uttt_replay,
    moves: ffi::uttt_legal_moves,
    referee: ffi::uttt_referee,
    search: ffi::uttt_search,
    full: ffi::uttt_full_verdict,
    sheets: ffi::uttt_agreed_opening,
    games: ffi::uttt_judge_games,
    simulate: ffi::uttt_simulate,
    lookup: ffi::uttt_book_lookup,
    publish: ffi::uttt_book_publish,
    add: ffi::uttt_book_add,
};
