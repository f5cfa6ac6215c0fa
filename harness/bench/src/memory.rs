//! Where the original's slabs come from. Left alone, the C library's allocator keeps some of what one search
//! gave back for the next, so that a round would depend on the one before it.

extern "C" {
    fn mallopt(parameter: i32, value: i32) -> i32;
    fn malloc_trim(keep: usize) -> i32;
}

const TRIM_THRESHOLD: i32 = -1;
const MMAP_THRESHOLD: i32 = -3;
/// From how many bytes on a piece gets pages of its own: the usual number, and the most that can be set.
const SMALL: i32 = 128 * 1024;
const LARGE: i32 = 32 * 1024 * 1024;

/// A slab is new pages from the system, as in a process that runs one search. Called before each.
pub fn new_pages() {
    set(SMALL, SMALL);
    // SAFETY: it gives back free memory alone.
    unsafe { malloc_trim(0) };
}

/// What a search gives back stays with the process, and the next one finds it.
pub fn kept_pages() {
    set(LARGE, i32::MAX);
}

fn set(mmap: i32, trim: i32) {
    // SAFETY: both change where later memory comes from, nothing else.
    let taken = unsafe { [mallopt(MMAP_THRESHOLD, mmap), mallopt(TRIM_THRESHOLD, trim)] };
    assert_eq!(taken, [1, 1], "the allocator takes both settings");
}
