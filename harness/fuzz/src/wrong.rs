//! Libraries with one thing wrong, to see that each is noticed: the proved exports with something done before
//! or after them. `fuzz wrong` runs every one in a process of its own.

// What a macro below has nothing to do with is ().
#![allow(clippy::no_effect)]

use crate::exports::{Exports, LIBRARY};
use calls::record::{Position, EMPTY, LENGTH};
use uttt::ffi;

pub const ALL: [(&str, Exports); 36] = [
    ("moves reads a byte past the record", Exports { moves: moves_past, ..LIBRARY }),
    ("moves reads a byte before the record", Exports { moves: moves_before, ..LIBRARY }),
    ("moves counts one move more", Exports { moves: moves_more, ..LIBRARY }),
    ("moves writes past its last move", Exports { moves: moves_beyond, ..LIBRARY }),
    ("moves reads cell 29 from bits 62 and 63", Exports { moves: moves_cell_29, ..LIBRARY }),
    ("replay writes before it refuses", Exports { replay: replay_early, ..LIBRARY }),
    ("replay writes a byte past the record", Exports { replay: replay_beyond, ..LIBRARY }),
    ("replay gives an index past the moves", Exports { replay: replay_index, ..LIBRARY }),
    ("replay writes into the moves", Exports { replay: replay_moves, ..LIBRARY }),
    ("replay reads cell 29 from bits 62 and 63", Exports { replay: replay_cell_29, ..LIBRARY }),
    ("replay reads boards 6 to 8 a byte early", Exports { replay: replay_a_byte_early, ..LIBRARY }),
    ("replay reads board 3 a bit late", Exports { replay: replay_a_bit_late, ..LIBRARY }),
    ("replay takes code 3 at cell 80 for an empty cell", Exports { replay: replay_code_3, ..LIBRARY }),
    ("referee does not return", Exports { referee: referee_stays, ..LIBRARY }),
    ("referee cuts the length to 32 bits", Exports { referee: referee_cut, ..LIBRARY }),
    ("search lets the pool's first word in", Exports { search: search_reads, ..LIBRARY }),
    ("search writes past the capacity", Exports { search: search_beyond, ..LIBRARY }),
    ("search writes past the pool", Exports { search: search_past, ..LIBRARY }),
    ("search says True too early", Exports { search: search_true, ..LIBRARY }),
    ("search refuses with 7", Exports { search: search_seven, ..LIBRARY }),
    ("search counts more than its budget", Exports { search: search_over, ..LIBRARY }),
    ("search stops short with room for any leaf", Exports { search: search_short, ..LIBRARY }),
    ("full verdict writes before it refuses", Exports { full: full_early, ..LIBRARY }),
    ("full verdict gives a field with a refusal", Exports { full: full_field, ..LIBRARY }),
    ("sheets counts one move more", Exports { sheets: sheets_more, ..LIBRARY }),
    ("sheets ends one move early", Exports { sheets: sheets_early, ..LIBRARY }),
    ("sheets goes by the first sheet alone", Exports { sheets: sheets_first, ..LIBRARY }),
    ("sheets reads a byte past the second sheet", Exports { sheets: sheets_past, ..LIBRARY }),
    ("sheets writes to a short output", Exports { sheets: sheets_short, ..LIBRARY }),
    ("sheets writes a byte past the record", Exports { sheets: sheets_beyond, ..LIBRARY }),
    ("sheets writes no record after no moves", Exports { sheets: sheets_unwritten, ..LIBRARY }),
    ("sheets writes past the number", Exports { sheets: sheets_wide_number, ..LIBRARY }),
    ("sheets does not write the number 0", Exports { sheets: sheets_no_zero, ..LIBRARY }),
    ("sheets does not write the number 7", Exports { sheets: sheets_no_seven, ..LIBRARY }),
    ("sheets gives a count with the number 7", Exports { sheets: sheets_count, ..LIBRARY }),
    ("sheets cuts the second sheet's length to 32 bits", Exports { sheets: sheets_cut, ..LIBRARY }),
];

/// A legal moves with something done before it and after it.
macro_rules! moves {
    ($name:ident, |$r:ident, $n:ident| $before:expr, |$a:ident, $out:ident, $room:ident| $after:expr) => {
        unsafe extern "C" fn $name($r: *const u8, $n: usize, $out: *mut u8, $room: usize) -> ffi::MovesAnswer {
            $before;
            #[allow(unused_mut)]
            let mut $a = ffi::uttt_legal_moves($r, $n, $out, $room);
            $after;
            $a
        }
    };
}

/// A replay with something done before it and after it.
macro_rules! replay {
    ($name:ident, |$m:ident, $k:ident| $before:expr, |$a:ident, $out:ident, $room:ident| $after:expr) => {
        unsafe extern "C" fn $name(
            r: *const u8,
            n: usize,
            $m: *const u8,
            $k: usize,
            $out: *mut u8,
            $room: usize,
        ) -> ffi::ReplayAnswer {
            $before;
            #[allow(unused_mut)]
            let mut $a = ffi::uttt_replay(r, n, $m, $k, $out, $room);
            $after;
            $a
        }
    };
}

/// A replay of what it takes the record for.
macro_rules! replay_misread {
    ($name:ident, |$record:ident| $read:expr) => {
        unsafe extern "C" fn $name(
            r: *const u8,
            n: usize,
            m: *const u8,
            k: usize,
            out: *mut u8,
            room: usize,
        ) -> ffi::ReplayAnswer {
            if n != LENGTH {
                return ffi::uttt_replay(r, n, m, k, out, room);
            }
            let $record: &[u8; LENGTH] = &*r.cast();
            let read: [u8; LENGTH] = $read;
            ffi::uttt_replay(read.as_ptr(), n, m, k, out, room)
        }
    };
}

/// The record with each bit taken from the place that is given for it.
fn taken_from(record: &[u8; LENGTH], place: impl Fn(usize) -> usize) -> [u8; LENGTH] {
    let bit = |at: usize| record[at / 8] >> (7 - at % 8) & 1;
    std::array::from_fn(|byte| (0..8).map(|i| bit(place(8 * byte + i)) << (7 - i)).sum())
}

/// The record with cell 29 from bits 62 and 63.
fn with_cell_29_misread(record: &[u8; LENGTH]) -> [u8; LENGTH] {
    taken_from(record, |bit| if bit == 63 || bit == 64 { bit - 1 } else { bit })
}

/// A search with something looked at before it and something done after it.
macro_rules! search {
    ($name:ident, |$seen:ident, $a:ident, $words:ident, $k:ident| $before:expr, $after:expr) => {
        #[allow(clippy::too_many_arguments)]
        unsafe extern "C" fn $name(
            r: *const u8,
            n: usize,
            $words: *mut u32,
            $k: usize,
            rule: u64,
            limit: u64,
            budget: u64,
            interval: u64,
            staying: bool,
            margin: f64,
        ) -> ffi::SearchAnswer {
            #[allow(unused_variables, clippy::let_unit_value)]
            let $seen = $before;
            #[allow(unused_mut)]
            let mut $a = ffi::uttt_search(r, n, $words, $k, rule, limit, budget, interval, staying, margin);
            $after;
            $a
        }
    };
}

/// A full verdict with something done after it.
macro_rules! full {
    ($name:ident, |$a:ident, $words:ident| $after:expr) => {
        #[allow(clippy::too_many_arguments)]
        unsafe extern "C" fn $name(
            r: *const u8,
            n: usize,
            $words: *mut u32,
            k: usize,
            limit: u64,
            budget: u64,
            interval: u64,
            staying: bool,
            margin: f64,
        ) -> ffi::FullAnswer {
            #[allow(unused_mut)]
            let mut $a = ffi::uttt_full_verdict(r, n, $words, k, limit, budget, interval, staying, margin);
            $after;
            $a
        }
    };
}

/// What a call of two sheets is lent.
#[derive(Clone, Copy)]
struct Lent {
    first: *const u8,
    n: usize,
    second: *const u8,
    k: usize,
    out: *mut u8,
    room: usize,
    number: *mut u32,
}

impl Lent {
    unsafe fn call(self) -> u64 {
        ffi::uttt_agreed_opening(self.first, self.n, self.second, self.k, self.out, self.room, self.number)
    }
}

/// A call of two sheets that is done otherwise.
macro_rules! sheets {
    ($name:ident, |$lent:ident| $done:expr) => {
        unsafe extern "C" fn $name(
            first: *const u8,
            n: usize,
            second: *const u8,
            k: usize,
            out: *mut u8,
            room: usize,
            number: *mut u32,
        ) -> u64 {
            let $lent = Lent { first, n, second, k, out, room, number };
            $done
        }
    };
}

/// A call of two sheets with something looked at before it and something done after it.
macro_rules! sheets_then {
    ($name:ident, |$lent:ident, $seen:ident, $a:ident| $before:expr, $after:expr) => {
        sheets!($name, |$lent| {
            #[allow(unused_variables, clippy::let_unit_value)]
            let $seen = $before;
            #[allow(unused_mut)]
            let mut $a = $lent.call();
            $after;
            $a
        });
    };
}

/// Does it if the condition holds.
macro_rules! when {
    ($holds:expr, $done:expr) => {
        if $holds {
            $done
        }
    };
}

moves!(moves_past, |r, n| r.wrapping_add(n).read_volatile(), |a, out, room| ());
moves!(moves_before, |r, n| r.wrapping_sub(1).read_volatile(), |a, out, room| ());
moves!(moves_more, |r, n| (), |a, out, room| when!(a.code == 0, a.count += 1));
moves!(moves_beyond, |r, n| (), |a, out, room| when!(
    a.code == 0 && (a.count as usize) < room,
    *out.add(a.count as usize) ^= 1
));

unsafe extern "C" fn moves_cell_29(r: *const u8, n: usize, out: *mut u8, room: usize) -> ffi::MovesAnswer {
    if n != LENGTH {
        return ffi::uttt_legal_moves(r, n, out, room);
    }
    let read = with_cell_29_misread(&*r.cast());
    ffi::uttt_legal_moves(read.as_ptr(), n, out, room)
}

replay!(replay_early, |m, k| (), |a, out, room| when!(a.code > 7, *out ^= 1));
replay!(replay_beyond, |m, k| (), |a, out, room| when!(a.code == 0 && room > 21, *out.add(21) ^= 1));
replay!(replay_index, |m, k| (), |a, out, room| when!(a.code > 10, a.index = k as u64));
replay!(replay_moves, |m, k| when!(k > 0, m.cast_mut().write_volatile(m.read_volatile())), |a, out, room| ());

// Three words of eight bytes: cell 29 from the first of them alone, the third from byte 12, and board 3 put together
// from the first and the second one bit off.
replay_misread!(replay_cell_29, |record| with_cell_29_misread(record));
replay_misread!(replay_a_byte_early, |record| {
    taken_from(record, |bit| if (113..167).contains(&bit) { bit - 8 } else { bit })
});
replay_misread!(replay_a_bit_late, |record| {
    taken_from(record, |bit| if (59..77).contains(&bit) { bit + 1 } else { bit })
});
replay_misread!(replay_code_3, |record| {
    let mut position = Position::read(record);
    when!(position.cells[8][8] == 3, position.cells[8][8] = EMPTY);
    position.write()
});

search!(
    search_reads,
    |seen, a, words, k| if k > 0 { *words % 2 } else { 0 },
    when!(a.code == 0, a.result.allocated += u64::from(seen))
);
search!(search_beyond, |seen, a, words, k| (), when!(a.code == 0 && !k.is_multiple_of(5), *words.add(k - 1) ^= 1));
search!(search_past, |seen, a, words, k| (), when!(a.code == 0, *words.add(k) ^= 1));
search!(search_true, |seen, a, words, k| (), when!(a.result.cause > 0, a.result.verdict = 1));
search!(search_seven, |seen, a, words, k| (), when!(a.code == 8, a.code = 7));
search!(search_over, |seen, a, words, k| (), when!(a.result.cause == 1, a.result.expanded += 1));
search!(search_short, |seen, a, words, k| (), when!(a.result.cause == 1, a.result.cause = 2));

full!(full_early, |a, words| when!(a.code == 10, *words ^= 1));
full!(full_field, |a, words| when!(a.code > 0, a.second.cause = 1));

sheets_then!(sheets_more, |lent, seen, a| (), when!(*lent.number == 0, a += 1));
sheets_then!(sheets_past, |lent, seen, a| lent.second.wrapping_add(lent.k).read_volatile(), ());
sheets_then!(sheets_short, |lent, seen, a| (), when!(*lent.number == 7 && lent.room > 0, *lent.out ^= 1));
sheets_then!(sheets_beyond, |lent, seen, a| (), when!(lent.room > 21, *lent.out.add(21) ^= 1));
sheets_then!(
    sheets_unwritten,
    |lent, seen, a| if lent.room > 0 { *lent.out } else { 0 },
    when!(*lent.number == 0 && a == 0, *lent.out = seen)
);
sheets_then!(sheets_wide_number, |lent, seen, a| (), lent.number.add(1).write_volatile(0));
sheets_then!(sheets_no_zero, |lent, seen, a| *lent.number, when!(*lent.number == 0, *lent.number = seen));
sheets_then!(sheets_no_seven, |lent, seen, a| *lent.number, when!(*lent.number == 7, *lent.number = seen));
sheets_then!(sheets_count, |lent, seen, a| (), when!(*lent.number == 7, a = lent.k as u64));

sheets!(sheets_early, |lent| {
    let shorter = (lent.call() as usize).saturating_sub(1);
    Lent { n: shorter, k: shorter, ..lent }.call()
});
sheets!(sheets_first, |lent| Lent { second: lent.first, k: lent.n, ..lent }.call());
sheets!(sheets_cut, |lent| Lent { k: lent.k as u32 as usize, ..lent }.call());

unsafe extern "C" fn referee_stays(r: *const u8, n: usize, rule: u64) -> ffi::RefereeAnswer {
    let a = ffi::uttt_referee(r, n, rule);
    if a.value == 1 {
        loop {
            std::hint::spin_loop();
        }
    }
    a
}

unsafe extern "C" fn referee_cut(r: *const u8, n: usize, rule: u64) -> ffi::RefereeAnswer {
    ffi::uttt_referee(r, n as u32 as usize, rule)
}
