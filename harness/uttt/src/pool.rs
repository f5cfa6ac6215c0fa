//! Pools lent to the library, between two margins and filled with a pattern first. The words stand in
//! one buffer that is kept from call to call and grows to the longest pool asked for.

use calls::table::LARGEST_POOL;
use std::cell::RefCell;

/// The most nodes that are lent: twice as many as the library takes.
pub const MOST_NODES: u64 = 2 * LARGEST_POOL;
const WORDS_A_NODE: usize = 5;
const MARGIN: usize = 64;
/// Up to twice this length every word of a buffer is filled and checked; of a longer one so many words
/// at each end, and one in `STEP` between. The others hold zeros, or what earlier searches left.
const WHOLE: usize = 400_000;
const STEP: usize = 65_537;

thread_local! {
    static BUFFER: RefCell<Vec<u32>> = const { RefCell::new(Vec::new()) };
}

/// Lends a pool of `nodes` nodes to `call`, as its first word and its length, and gives what `call`
/// gave. The pool has up to four words more than the nodes take, another number under the opposite
/// pattern. Margins and words must stay as they were, but for those of so many nodes, from the first
/// on, as `open` says that were the call's to write.
pub fn lend<T>(
    nodes: u64,
    pattern: u8,
    call: impl FnOnce(*mut u32, usize) -> T,
    open: impl FnOnce(&T) -> u64,
) -> Result<T, String> {
    if nodes > MOST_NODES {
        return Err(format!("no pool over {} nodes is lent", MOST_NODES));
    }
    let capacity = WORDS_A_NODE * nodes as usize;
    let length = capacity + (nodes as usize + (pattern >> 7) as usize) % WORDS_A_NODE;
    let all = length + 2 * MARGIN;
    BUFFER.with_borrow_mut(|buffer| {
        if buffer.len() < all {
            *buffer = vec![0; all];
        }
        watched(all).for_each(|at| buffer[at] = filling(pattern, at));
        let answer = call(buffer[MARGIN..].as_mut_ptr(), length);
        let written = MARGIN..MARGIN + WORDS_A_NODE * open(&answer) as usize;
        match watched(all).find(|at| !written.contains(at) && buffer[*at] != filling(pattern, *at)) {
            None => Ok(answer),
            Some(at) => Err(format!("word {} of a pool of {} was written", at as i64 - MARGIN as i64, length)),
        }
    })
}

/// The places of a buffer that are filled and checked.
fn watched(all: usize) -> impl Iterator<Item = usize> {
    let (front, back) = if all <= 2 * WHOLE { (all, all) } else { (WHOLE, all - WHOLE) };
    (0..front).chain((front..back).step_by(STEP)).chain(back..all)
}

fn filling(pattern: u8, at: usize) -> u32 {
    u32::from_ne_bytes([pattern; 4]) ^ (at as u32).wrapping_mul(0x9E37_79B1)
}
