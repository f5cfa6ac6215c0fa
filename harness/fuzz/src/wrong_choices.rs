//! Libraries with one thing wrong in check 22, a free choice that can't be, of the calls that load one record, as
//! `wrong` has them: the proved exports with another record, or with another refusal.

use crate::book_calls::{add, add_code, lookup, publish, Asked as Pair};
use crate::exports::{Exports, LIBRARY};
use crate::record_calls::{moves, referee, replay, Full, Loads, Lookup, Publish, Search};
use crate::search_calls::{full, full_then, search, search_then};
use calls::book::ENTRY;
use calls::record::{Position, EMPTY, FREE_CHOICE, LENGTH};
use calls::table::{board_state, impossible_choice, record_refusal, refusal_to_6, Board};
use uttt::ffi;

pub const ALL: [(&str, Exports); 90] = [
    ("replay skips check 22", Exports { replay: replay_skips, ..LIBRARY }),
    ("replay refuses the empty game with 22", Exports { replay: replay_empty, ..LIBRARY }),
    ("replay takes a drawn board for one in play in check 22", Exports { replay: replay_drawn, ..LIBRARY }),
    ("replay takes a won board for one in play in check 22", Exports { replay: replay_won, ..LIBRARY }),
    ("replay refuses any target with 22 if no board is done", Exports { replay: replay_any, ..LIBRARY }),
    ("replay makes check 22 before 3", Exports { replay: replay_before_3, ..LIBRARY }),
    ("moves skips check 22", Exports { moves: moves_skips, ..LIBRARY }),
    ("moves refuses the empty game with 22", Exports { moves: moves_empty, ..LIBRARY }),
    ("moves takes a drawn board for one in play in check 22", Exports { moves: moves_drawn, ..LIBRARY }),
    ("moves takes a won board for one in play in check 22", Exports { moves: moves_won, ..LIBRARY }),
    ("moves refuses any target with 22 if no board is done", Exports { moves: moves_any, ..LIBRARY }),
    ("moves makes check 22 before 3", Exports { moves: moves_before_3, ..LIBRARY }),
    ("search skips check 22", Exports { search: search_skips, ..LIBRARY }),
    ("search refuses the empty game with 22", Exports { search: search_empty, ..LIBRARY }),
    ("search takes a drawn board for one in play in check 22", Exports { search: search_drawn, ..LIBRARY }),
    ("search takes a won board for one in play in check 22", Exports { search: search_won, ..LIBRARY }),
    ("search refuses any target with 22 if no board is done", Exports { search: search_any, ..LIBRARY }),
    ("search makes check 22 before 3", Exports { search: search_before_3, ..LIBRARY }),
    ("full verdict skips check 22", Exports { full: full_skips, ..LIBRARY }),
    ("full verdict refuses the empty game with 22", Exports { full: full_empty, ..LIBRARY }),
    ("full verdict takes a drawn board for one in play in check 22", Exports { full: full_drawn, ..LIBRARY }),
    ("full verdict takes a won board for one in play in check 22", Exports { full: full_won, ..LIBRARY }),
    ("full verdict refuses any target with 22 if no board is done", Exports { full: full_any, ..LIBRARY }),
    ("full verdict makes check 22 before 3", Exports { full: full_before_3, ..LIBRARY }),
    ("referee skips check 22", Exports { referee: referee_skips, ..LIBRARY }),
    ("referee refuses the empty game with 22", Exports { referee: referee_empty, ..LIBRARY }),
    ("referee takes a drawn board for one in play in check 22", Exports { referee: referee_drawn, ..LIBRARY }),
    ("referee takes a won board for one in play in check 22", Exports { referee: referee_won, ..LIBRARY }),
    ("referee refuses any target with 22 if no board is done", Exports { referee: referee_any, ..LIBRARY }),
    ("referee makes check 22 before 3", Exports { referee: referee_before_3, ..LIBRARY }),
    ("lookup skips check 22", Exports { lookup: lookup_skips, ..LIBRARY }),
    ("lookup refuses the empty game with 22", Exports { lookup: lookup_empty, ..LIBRARY }),
    ("lookup takes a drawn board for one in play in check 22", Exports { lookup: lookup_drawn, ..LIBRARY }),
    ("lookup takes a won board for one in play in check 22", Exports { lookup: lookup_won, ..LIBRARY }),
    ("lookup refuses any target with 22 if no board is done", Exports { lookup: lookup_any, ..LIBRARY }),
    ("lookup makes check 22 before 3", Exports { lookup: lookup_before_3, ..LIBRARY }),
    ("publish skips check 22", Exports { publish: publish_skips, ..LIBRARY }),
    ("publish refuses the empty game with 22", Exports { publish: publish_empty, ..LIBRARY }),
    ("publish takes a drawn board for one in play in check 22", Exports { publish: publish_drawn, ..LIBRARY }),
    ("publish takes a won board for one in play in check 22", Exports { publish: publish_won, ..LIBRARY }),
    ("publish refuses any target with 22 if no board is done", Exports { publish: publish_any, ..LIBRARY }),
    ("publish makes check 22 before 3", Exports { publish: publish_before_3, ..LIBRARY }),
    ("add skips check 22", Exports { add: add_skips, ..LIBRARY }),
    ("add refuses the empty game with 22", Exports { add: add_empty, ..LIBRARY }),
    ("add takes a drawn board for one in play in check 22", Exports { add: add_drawn, ..LIBRARY }),
    ("add takes a won board for one in play in check 22", Exports { add: add_won, ..LIBRARY }),
    ("add refuses any target with 22 if no board is done", Exports { add: add_any, ..LIBRARY }),
    ("add makes check 22 before 3", Exports { add: add_before_3, ..LIBRARY }),
    ("replay makes check 22 after 7", Exports { replay: replay_after_7, ..LIBRARY }),
    ("moves makes check 22 after 7", Exports { moves: moves_after_7, ..LIBRARY }),
    ("search makes check 22 after 8", Exports { search: search_after_8, ..LIBRARY }),
    ("search makes check 22 after 10", Exports { search: search_after_10, ..LIBRARY }),
    ("search makes check 22 after 21", Exports { search: search_after_21, ..LIBRARY }),
    ("full verdict makes check 22 after 8", Exports { full: full_after_8, ..LIBRARY }),
    ("full verdict makes check 22 after 10", Exports { full: full_after_10, ..LIBRARY }),
    ("full verdict makes check 22 after 21", Exports { full: full_after_21, ..LIBRARY }),
    ("referee makes check 22 after 10", Exports { referee: referee_after_10, ..LIBRARY }),
    ("referee makes check 22 after 16", Exports { referee: referee_after_16, ..LIBRARY }),
    ("lookup makes check 22 after 10", Exports { lookup: lookup_after_10, ..LIBRARY }),
    ("lookup makes check 22 after 17", Exports { lookup: lookup_after_17, ..LIBRARY }),
    ("publish makes check 22 after 10", Exports { publish: publish_after_10, ..LIBRARY }),
    ("publish makes check 22 after 17", Exports { publish: publish_after_17, ..LIBRARY }),
    ("add makes check 22 after 8", Exports { add: add_after_8, ..LIBRARY }),
    ("add makes check 22 after 10", Exports { add: add_after_10, ..LIBRARY }),
    ("add makes check 22 after 21", Exports { add: add_after_21, ..LIBRARY }),
    ("add makes check 22 after 17", Exports { add: add_after_17, ..LIBRARY }),
    ("add makes check 22 after 18", Exports { add: add_after_18, ..LIBRARY }),
    ("replay makes check 22 before 2", Exports { replay: replay_before_2, ..LIBRARY }),
    ("replay writes its output before it refuses with 22", Exports { replay: replay_writes, ..LIBRARY }),
    ("replay gives an index with refusal 22", Exports { replay: replay_index, ..LIBRARY }),
    ("replay plays the moves before check 22", Exports { replay: replay_after_moves, ..LIBRARY }),
    ("moves writes its output before it refuses with 22", Exports { moves: moves_writes, ..LIBRARY }),
    ("moves gives a count with refusal 22", Exports { moves: moves_count, ..LIBRARY }),
    ("search writes to the pool before it refuses with 22", Exports { search: search_writes, ..LIBRARY }),
    ("search gives a result with refusal 22", Exports { search: search_result, ..LIBRARY }),
    ("full verdict writes to the pool before it refuses with 22", Exports { full: full_writes, ..LIBRARY }),
    ("referee gives a value with refusal 22", Exports { referee: referee_value, ..LIBRARY }),
    ("a trainer's lookup skips check 22", Exports { lookup: trainer_skips, ..LIBRARY }),
    ("lookup finds a held pair before check 22", Exports { lookup: lookup_held, ..LIBRARY }),
    ("lookup gives the verdict with refusal 22", Exports { lookup: lookup_verdict, ..LIBRARY }),
    ("lookup refuses a book with 22 for an entry", Exports { lookup: lookup_entries, ..LIBRARY }),
    ("lookup stops at an entry that 22 refuses", Exports { lookup: lookup_stops, ..LIBRARY }),
    ("publish says published of a held pair before check 22", Exports { publish: publish_held, ..LIBRARY }),
    ("publish writes to the book with refusal 22", Exports { publish: publish_writes, ..LIBRARY }),
    ("publish makes check 22 before 19", Exports { publish: publish_before_19, ..LIBRARY }),
    ("add finds a held pair before check 22", Exports { add: add_held, ..LIBRARY }),
    ("add writes to the book with refusal 22", Exports { add: add_writes, ..LIBRARY }),
    ("add counts one more with refusal 22", Exports { add: add_counts, ..LIBRARY }),
    ("add makes check 22 before 19", Exports { add: add_before_19, ..LIBRARY }),
    ("add takes an entry that 22 refuses for unused", Exports { add: add_unused, ..LIBRARY }),
];

/// The number of the check.
pub const CHECK: u32 = 22;

pub fn is_empty(position: &Position) -> bool {
    *position == Position::start()
}

/// Free choice and a cell taken, and no board in the state of a done one.
fn free_without(position: &Position, done: fn(Board) -> bool) -> bool {
    let taken = position.count(EMPTY) < 81;
    position.target == FREE_CHOICE && taken && !position.cells.iter().any(|board| done(board_state(board)))
}

pub fn none_won(position: &Position) -> bool {
    free_without(position, |state| matches!(state, Board::Won(_)))
}

pub fn none_drawn(position: &Position) -> bool {
    free_without(position, |state| state == Board::Drawn)
}

pub fn whatever_the_target(position: &Position) -> bool {
    impossible_choice(&Position { target: FREE_CHOICE, ..*position })
}

/// Passes checks 1 to 6 and is refused by a check that goes by this.
pub fn refused_for(position: &Position, wrongly: fn(&Position) -> bool) -> bool {
    refusal_to_6(&position.write()).is_none() && wrongly(position)
}

/// The record with board 0 as its target.
pub fn named(position: &Position) -> [u8; LENGTH] {
    Position { target: 0, ..*position }.write()
}

/// The record that is accepted but for its target, where the check refuses the call.
unsafe fn named_if_refused<L: Loads>(lent: L) -> Option<[u8; LENGTH]> {
    let position = lent.position().filter(|_| !lent.is_by_a_writing_trainer())?;
    refused_for(&position, impossible_choice).then(|| named(&position))
}

/// The call without the check: as if the target were board 0.
pub unsafe fn skips<L: Loads>(lent: L) -> L::Answer {
    match named_if_refused(lent) {
        Some(record) => lent.with(&record).call(),
        None => lent.call(),
    }
}

/// The call with other records refused, too.
pub unsafe fn also<L: Loads>(lent: L, wrongly: fn(&Position) -> bool) -> L::Answer {
    match lent.position() {
        Some(position) if !lent.is_by_a_writing_trainer() && refused_for(&position, wrongly) => lent.refused(CHECK),
        _ => lent.call(),
    }
}

/// The call with the check before an earlier one.
pub unsafe fn before<L: Loads>(lent: L, check: u32) -> L::Answer {
    let a = lent.call();
    if L::code(&a) == check && lent.position().is_some_and(|position| impossible_choice(&position)) {
        return lent.refused(CHECK);
    }
    a
}

/// The call with the check after a later one.
pub unsafe fn after<L: Loads>(lent: L, check: u32) -> L::Answer {
    match named_if_refused(lent) {
        Some(record) if lent.refusal_with(&record) == Some(check) => lent.refused(check),
        _ => lent.call(),
    }
}

impl Pair {
    /// Whether a used entry has a record that the check refuses.
    unsafe fn has_such_an_entry(&self) -> bool {
        let bytes = self.bytes();
        let mut used = bytes.chunks_exact(ENTRY).take(self.count as usize);
        used.any(|entry| record_refusal(&entry[..LENGTH]) == Some(CHECK))
    }

    /// The verdict bits of the first entry that would hold the pair.
    unsafe fn verdict_held(&self) -> Option<u32> {
        let held = if self.is_broken() { vec![] } else { self.places_held() };
        held.first().map(|at| u32::from(*self.last_byte(*at) / 16 % 4))
    }
}

replay!(replay_skips, |lent| skips(lent));
replay!(replay_empty, |lent| also(lent, is_empty));
replay!(replay_drawn, |lent| also(lent, none_won));
replay!(replay_won, |lent| also(lent, none_drawn));
replay!(replay_any, |lent| also(lent, whatever_the_target));
replay!(replay_before_3, |lent| before(lent, 3));

moves!(moves_skips, |lent| skips(lent));
moves!(moves_empty, |lent| also(lent, is_empty));
moves!(moves_drawn, |lent| also(lent, none_won));
moves!(moves_won, |lent| also(lent, none_drawn));
moves!(moves_any, |lent| also(lent, whatever_the_target));
moves!(moves_before_3, |lent| before(lent, 3));

search!(search_skips, |lent| skips(Search(lent)));
search!(search_empty, |lent| also(Search(lent), is_empty));
search!(search_drawn, |lent| also(Search(lent), none_won));
search!(search_won, |lent| also(Search(lent), none_drawn));
search!(search_any, |lent| also(Search(lent), whatever_the_target));
search!(search_before_3, |lent| before(Search(lent), 3));

full!(full_skips, |lent| skips(Full(lent)));
full!(full_empty, |lent| also(Full(lent), is_empty));
full!(full_drawn, |lent| also(Full(lent), none_won));
full!(full_won, |lent| also(Full(lent), none_drawn));
full!(full_any, |lent| also(Full(lent), whatever_the_target));
full!(full_before_3, |lent| before(Full(lent), 3));

referee!(referee_skips, |lent| skips(lent));
referee!(referee_empty, |lent| also(lent, is_empty));
referee!(referee_drawn, |lent| also(lent, none_won));
referee!(referee_won, |lent| also(lent, none_drawn));
referee!(referee_any, |lent| also(lent, whatever_the_target));
referee!(referee_before_3, |lent| before(lent, 3));

lookup!(lookup_skips, |lent| skips(Lookup(lent)));
lookup!(lookup_empty, |lent| also(Lookup(lent), is_empty));
lookup!(lookup_drawn, |lent| also(Lookup(lent), none_won));
lookup!(lookup_won, |lent| also(Lookup(lent), none_drawn));
lookup!(lookup_any, |lent| also(Lookup(lent), whatever_the_target));
lookup!(lookup_before_3, |lent| before(Lookup(lent), 3));

publish!(publish_skips, |lent| skips(Publish(lent)));
publish!(publish_empty, |lent| also(Publish(lent), is_empty));
publish!(publish_drawn, |lent| also(Publish(lent), none_won));
publish!(publish_won, |lent| also(Publish(lent), none_drawn));
publish!(publish_any, |lent| also(Publish(lent), whatever_the_target));
publish!(publish_before_3, |lent| before(Publish(lent), 3));

add!(add_skips, |lent| skips(lent));
add!(add_empty, |lent| also(lent, is_empty));
add!(add_drawn, |lent| also(lent, none_won));
add!(add_won, |lent| also(lent, none_drawn));
add!(add_any, |lent| also(lent, whatever_the_target));
add!(add_before_3, |lent| before(lent, 3));

replay!(replay_after_7, |lent| after(lent, 7));
moves!(moves_after_7, |lent| after(lent, 7));
search!(search_after_8, |lent| after(Search(lent), 8));
search!(search_after_10, |lent| after(Search(lent), 10));
search!(search_after_21, |lent| after(Search(lent), 21));
full!(full_after_8, |lent| after(Full(lent), 8));
full!(full_after_10, |lent| after(Full(lent), 10));
full!(full_after_21, |lent| after(Full(lent), 21));
referee!(referee_after_10, |lent| after(lent, 10));
referee!(referee_after_16, |lent| after(lent, 16));
lookup!(lookup_after_10, |lent| after(Lookup(lent), 10));
lookup!(lookup_after_17, |lent| after(Lookup(lent), 17));
publish!(publish_after_10, |lent| after(Publish(lent), 10));
publish!(publish_after_17, |lent| after(Publish(lent), 17));
add!(add_after_8, |lent| after(lent, 8));
add!(add_after_10, |lent| after(lent, 10));
add!(add_after_21, |lent| after(lent, 21));
add!(add_after_17, |lent| after(lent, 17));
add!(add_after_18, |lent| after(lent, 18));

replay!(replay_before_2, |lent| before(lent, 2));
replay!(replay_writes, |lent| {
    let a = lent.call();
    if a.code == CHECK && lent.room > 0 {
        *lent.out ^= 1;
    }
    a
});
replay!(replay_index, |lent| {
    let a = lent.call();
    ffi::ReplayAnswer { index: a.index + u64::from(a.code == CHECK), ..a }
});
replay!(replay_after_moves, |lent| match named_if_refused(lent) {
    Some(record) => match lent.with(&record).call() {
        a @ ffi::ReplayAnswer { code: 11..=15, .. } => a,
        _ => lent.refused(CHECK),
    },
    None => lent.call(),
});
moves!(moves_writes, |lent| {
    let a = lent.call();
    if a.code == CHECK && lent.room > 0 {
        *lent.out ^= 1;
    }
    a
});
moves!(moves_count, |lent| {
    let a = lent.call();
    ffi::MovesAnswer { count: a.count + u64::from(a.code == CHECK), ..a }
});
search_then!(search_writes, |lent, a| if a.code == CHECK && lent.k > 0 {
    *lent.words ^= 1;
});
search_then!(search_result, |lent, a| a.result.cause += u32::from(a.code == CHECK));
full_then!(full_writes, |lent, a| if a.code == CHECK && lent.k > 0 {
    *lent.words ^= 1;
});
referee!(referee_value, |lent| {
    let a = lent.call();
    ffi::RefereeAnswer { value: a.value + u32::from(a.code == CHECK), ..a }
});

lookup!(trainer_skips, |lent| if lent.trainer { skips(Lookup(lent)) } else { lent.lookup() });
lookup!(lookup_held, |lent| match (lent.lookup(), lent.verdict_held()) {
    (ffi::LookupAnswer { code: CHECK, .. }, Some(verdict)) => ffi::LookupAnswer { code: 0, index: 0, verdict },
    (a, _) => a,
});
lookup!(lookup_verdict, |lent| match (lent.lookup(), lent.verdict_held()) {
    (ffi::LookupAnswer { code: CHECK, .. }, Some(verdict)) => ffi::LookupAnswer { code: CHECK, index: 0, verdict },
    (a, _) => a,
});
lookup!(lookup_entries, |lent| match lent.lookup() {
    a if a.code == 0 && lent.has_such_an_entry() => Lookup(lent).refused(CHECK),
    a => a,
});
lookup!(lookup_stops, |lent| match lent.lookup() {
    a if a.code == 0 && lent.has_such_an_entry() => ffi::LookupAnswer { verdict: 0, ..a },
    a => a,
});
publish!(publish_held, |lent| match (lent.publish(), lent.verdict_held()) {
    (ffi::PublishAnswer { code: CHECK, .. }, Some(_)) => ffi::PublishAnswer { code: 0, index: 0, published: 1 },
    (a, _) => a,
});
publish!(publish_writes, |lent| {
    let a = lent.publish();
    if a.code == CHECK {
        lent.write();
    }
    a
});
publish!(publish_before_19, |lent| before(Publish(lent), 19));
add!(add_held, |lent| match (lent.add(), lent.asked.verdict_held()) {
    (ffi::AddAnswer { code: CHECK, .. }, Some(verdict)) => ffi::AddAnswer { verdict, ..lent.refused(0) },
    (a, _) => a,
});
add!(add_writes, |lent| {
    let a = lent.add();
    if a.code == CHECK {
        lent.asked.write();
    }
    a
});
add!(add_counts, |lent| {
    let a = lent.add();
    ffi::AddAnswer { count: a.count.wrapping_add(u64::from(a.code == CHECK)), ..a }
});
add!(add_before_19, |lent| before(lent, 19));
add_code!(add_unused, |lent, code| (code == 18 && lent.asked.has_such_an_entry()).then_some(0));
