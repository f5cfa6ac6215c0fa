//! Buffers with a page that can't be touched at each end. A buffer stands at the end of its pages, so that one
//! byte too far traps, or at their start, so that one byte too early does; what is left of its pages holds a
//! known filling that must stay.

use crate::filling::Filling;
use std::ffi::c_void;
use std::ops::Range;
use std::{ptr, slice};

extern "C" {
    fn mmap(at: *mut c_void, length: usize, protection: i32, flags: i32, file: i32, offset: i64) -> *mut c_void;
    fn mprotect(at: *mut c_void, length: usize, protection: i32) -> i32;
    fn madvise(at: *mut c_void, length: usize, advice: i32) -> i32;
}

const NONE: i32 = 0;
const READ: i32 = 1;
const WRITE: i32 = 2;
const PRIVATE: i32 = 0x02;
const ANONYMOUS: i32 = 0x20;
const NO_RESERVE: i32 = 0x4000;
const NOT_NEEDED: i32 = 4;

const PAGE: usize = 4_096;
/// Of more pages than twice this length only so many bytes at each end are filled and looked at.
const WATCHED: usize = 64 * PAGE;

/// Which end of the buffer is the end of its pages.
#[derive(Clone, Copy, Debug, PartialEq)]
pub enum Edge {
    Start,
    End,
}

pub struct Region {
    base: *mut u8,
    capacity: usize,
    /// The pages that can be touched, and the buffer in them.
    pages: Range<usize>,
    lent: Range<usize>,
    edge: Edge,
    filling: Filling,
}

impl Region {
    /// Room for buffers up to `capacity` bytes; none where the system has not so many addresses.
    pub fn new(capacity: usize) -> Option<Region> {
        let capacity = whole_pages(capacity);
        // SAFETY: a new mapping, of which nothing can be touched yet.
        let at = unsafe {
            mmap(ptr::null_mut(), capacity + 2 * PAGE, NONE, PRIVATE | ANONYMOUS | NO_RESERVE, -1, 0) as *mut u8
        };
        if at as isize == -1 {
            return None;
        }
        let base = at.wrapping_add(PAGE);
        Some(Region { base, capacity, pages: 0..0, lent: 0..0, edge: Edge::End, filling: Filling::Zeros })
    }

    /// Makes a buffer of `length` bytes, and fills its pages.
    pub fn lend(&mut self, length: usize, edge: Edge, filling: Filling) {
        assert!(length <= self.capacity, "no buffer of {} bytes is lent", length);
        self.take_back();
        let touched = whole_pages(length);
        (self.pages, self.lent) = match edge {
            Edge::End => (self.capacity - touched..self.capacity, self.capacity - length..self.capacity),
            Edge::Start => (0..touched, 0..length),
        };
        (self.edge, self.filling) = (edge, filling);
        self.protect(self.pages.clone(), READ | WRITE);
        for part in self.watched() {
            let first = part.start / 8;
            self.words(part).iter_mut().enumerate().for_each(|(i, word)| *word = filling.word(first + i));
        }
    }

    /// A buffer that holds `bytes`.
    pub fn lend_holding(&mut self, bytes: &[u8], edge: Edge, filling: Filling) {
        self.lend(bytes.len(), edge, filling);
        self.bytes().copy_from_slice(bytes);
    }

    /// A buffer that holds `bytes` and can't be written.
    pub fn lend_to_read(&mut self, bytes: &[u8], edge: Edge, filling: Filling) {
        self.lend_holding(bytes, edge, filling);
        self.protect(self.pages.clone(), READ);
    }

    /// A long buffer of zeros but for `front` bytes: the first page can be written, the others only read.
    pub fn lend_long(&mut self, length: usize, front: &[u8]) {
        self.lend(PAGE, Edge::Start, Filling::Zeros);
        self.bytes()[..front.len()].copy_from_slice(front);
        (self.pages, self.lent) = (0..whole_pages(length), 0..length);
        self.protect(PAGE..self.pages.end, READ);
    }

    /// Where the buffer starts; null for an empty one that stands at the start.
    pub fn pointer(&self) -> *mut u8 {
        if self.lent.is_empty() && self.edge == Edge::Start {
            return ptr::null_mut();
        }
        self.base.wrapping_add(self.lent.start)
    }

    pub fn bytes(&mut self) -> &mut [u8] {
        // SAFETY: the buffer lies in pages that can be read, and `self` is held.
        unsafe { slice::from_raw_parts_mut(self.base.add(self.lent.start), self.lent.len()) }
    }

    /// All that is watched but the buffer's first `written` bytes is still the filling; else which byte is not.
    pub fn unchanged(&mut self, written: usize) -> Result<(), String> {
        let open = self.lent.start..self.lent.start + written;
        let filling = self.filling;
        for part in self.watched() {
            let first = part.start / 8;
            for (i, word) in self.words(part).iter().enumerate() {
                let (is, was) = (word.to_ne_bytes(), filling.word(first + i).to_ne_bytes());
                let mut changed = (0..8).filter(|k| is[*k] != was[*k]).map(|k| 8 * (first + i) + k);
                if let Some(at) = changed.find(|at| !open.contains(at)) {
                    let place = at as i64 - self.lent.start as i64;
                    return Err(format!("byte {} of a buffer of {} was written", place, self.lent.len()));
                }
            }
        }
        Ok(())
    }

    /// No page can be touched any more. Many pages are given back to the system, and hold zeros the next time.
    fn take_back(&mut self) {
        let Range { start, end } = self.pages;
        if end - start > 2 * WATCHED {
            // SAFETY: pages of this mapping, to which no reference is held.
            let done = unsafe { madvise(self.base.add(start) as *mut c_void, end - start, NOT_NEEDED) };
            assert_eq!(done, 0, "the system takes pages back");
        }
        self.protect(start..end, NONE);
    }

    /// The parts of the pages that are filled and looked at: all, or both ends.
    fn watched(&self) -> [Range<usize>; 2] {
        let Range { start, end } = self.pages;
        if end - start <= 2 * WATCHED {
            return [start..end, end..end];
        }
        [start..start + WATCHED, end - WATCHED..end]
    }

    fn words(&mut self, part: Range<usize>) -> &mut [u64] {
        // SAFETY: the part is whole pages that can be read, and `self` is held.
        unsafe { slice::from_raw_parts_mut(self.base.add(part.start) as *mut u64, part.len() / 8) }
    }

    fn protect(&self, part: Range<usize>, protection: i32) {
        if part.is_empty() {
            return;
        }
        // SAFETY: the part is pages of this mapping, to which no reference is held.
        let done = unsafe { mprotect(self.base.add(part.start) as *mut c_void, part.len(), protection) };
        assert_eq!(done, 0, "the system protects pages");
    }
}

fn whole_pages(length: usize) -> usize {
    length.div_ceil(PAGE) * PAGE
}
