//! What happens when a call traps or does not return: its line is printed, and the program fails.

use std::ptr;
use std::sync::atomic::{AtomicPtr, AtomicUsize, Ordering};

extern "C" {
    fn sigaction(signal: i32, new: *const Action, old: *mut Action) -> i32;
    fn alarm(seconds: u32) -> u32;
    fn write(file: i32, bytes: *const u8, length: usize) -> isize;
    fn _exit(code: i32) -> !;
}

/// `struct sigaction` of Linux on 64 bits.
#[repr(C)]
struct Action {
    handler: extern "C" fn(i32),
    mask: [u64; 16],
    flags: i32,
    restorer: usize,
}

const ILL: i32 = 4;
const TRAP: i32 = 5;
const BUS: i32 = 7;
const FPE: i32 = 8;
const SEGV: i32 = 11;
const ALRM: i32 = 14;
const ON_STACK: i32 = 0x0800_0000;

static LINE: AtomicPtr<u8> = AtomicPtr::new(ptr::null_mut());
static LENGTH: AtomicUsize = AtomicUsize::new(0);

pub fn install() {
    for signal in [ILL, TRAP, BUS, FPE, SEGV, ALRM] {
        let action = Action { handler: caught, mask: [0; 16], flags: ON_STACK, restorer: 0 };
        // SAFETY: the handler only writes and leaves.
        let done = unsafe { sigaction(signal, &action, ptr::null_mut()) };
        assert_eq!(done, 0, "the system takes a handler");
    }
}

/// Runs `call`; should it trap, or take longer than `seconds`, `line` is told.
pub fn during<T>(line: &str, seconds: u32, call: impl FnOnce() -> T) -> T {
    LENGTH.store(line.len(), Ordering::SeqCst);
    LINE.store(line.as_ptr().cast_mut(), Ordering::SeqCst);
    // SAFETY: it sets a timer.
    unsafe { alarm(seconds) };
    let answer = call();
    // SAFETY: it stops the timer.
    unsafe { alarm(0) };
    LINE.store(ptr::null_mut(), Ordering::SeqCst);
    answer
}

extern "C" fn caught(signal: i32) {
    let line = LINE.load(Ordering::SeqCst);
    tell(match signal {
        _ if line.is_null() => b"fuzz: a signal outside of a call",
        ALRM => b"violation: the call did not return\n  call: ",
        SEGV | BUS => b"violation: the call touched what was not lent, or wrote what is only to be read\n  call: ",
        _ => b"violation: the call trapped\n  call: ",
    });
    if !line.is_null() {
        // SAFETY: `during` holds the line while the call runs.
        tell(unsafe { std::slice::from_raw_parts(line, LENGTH.load(Ordering::SeqCst)) });
    }
    tell(b"\n");
    // SAFETY: the process ends here.
    unsafe { _exit(1) }
}

fn tell(bytes: &[u8]) {
    // SAFETY: pointer and length belong together. Nothing is left to be done should it fail.
    unsafe { write(2, bytes.as_ptr(), bytes.len()) };
}
