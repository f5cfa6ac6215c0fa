//! One search on either side.

use crate::searches::{Search, INTERVAL, LIMIT, POOL_NODES, POOL_WORDS, RULE};
use calls::{Fields, Stay};
use uttt::{ffi, ours};

/// The original, which sets up its slabs itself.
pub fn original(search: &Search) -> Fields {
    original::search(&search.record(), RULE, POOL_NODES as u64, LIMIT, search.budget, INTERVAL, Stay::Off)
}

/// The library with a pool that is lent to it.
pub fn ours(search: &Search, pool: &mut [u32]) -> Fields {
    let record = search.record();
    // SAFETY: pointers and lengths belong together, and the buffers are apart.
    let answer = unsafe {
        ffi::uttt_search(
            record.as_ptr(),
            record.len(),
            pool.as_mut_ptr(),
            pool.len(),
            RULE,
            LIMIT,
            search.budget,
            INTERVAL,
            false,
            0.0,
        )
    };
    assert_eq!(answer.code, 0, "{} was refused", search.name);
    ours::fields(answer.result).expect("a verdict has a number")
}

/// The library with a pool made for this search and given back after it.
pub fn ours_fresh(search: &Search) -> Fields {
    ours(search, &mut vec![0; POOL_WORDS])
}
