//! Says which call ended the program, if one did: the same seed and as many calls lead there again.

use std::ffi::{c_int, c_void};
use std::sync::atomic::{AtomicU64, Ordering};

extern "C" {
    fn signal(number: c_int, handler: extern "C" fn(c_int)) -> usize;
    fn write(file: c_int, bytes: *const c_void, length: usize) -> isize;
    fn _exit(status: c_int) -> !;
}

/// SIGILL, SIGABRT, SIGBUS, SIGFPE and SIGSEGV, as Linux numbers them.
const SIGNALS: [c_int; 5] = [4, 6, 7, 8, 11];
const STDERR: c_int = 2;
const STATUS: c_int = 3;

static CALLS: AtomicU64 = AtomicU64::new(0);

/// From here on a crash is told.
pub fn watch() {
    for number in SIGNALS {
        // The handler does only what a handler may.
        unsafe { signal(number, crashed) };
    }
}

/// So many calls have been made before the next.
pub fn at(calls: u64) {
    CALLS.store(calls, Ordering::Relaxed);
}

extern "C" fn crashed(number: c_int) {
    say(b"CRASHED: signal ");
    say_number(number as u64);
    say(b" after ");
    say_number(CALLS.load(Ordering::Relaxed));
    say(b" calls\n");
    // Ends the program without coming back to where it crashed.
    unsafe { _exit(STATUS) }
}

fn say(bytes: &[u8]) {
    // The bytes are valid for their length.
    unsafe { write(STDERR, bytes.as_ptr().cast(), bytes.len()) };
}

/// In decimal, without asking for memory.
fn say_number(number: u64) {
    if number > 9 {
        say_number(number / 10);
    }
    say(&[b'0' + (number % 10) as u8]);
}
