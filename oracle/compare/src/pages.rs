//! Memory between two pages that nobody may touch: whoever reads or writes there ends the program.

use std::cell::RefCell;
use std::collections::BTreeMap;
use std::ffi::{c_int, c_void};
use std::ptr;
use std::slice::{from_raw_parts, from_raw_parts_mut};

extern "C" {
    fn mmap(
        address: *mut c_void,
        length: usize,
        protection: c_int,
        flags: c_int,
        file: c_int,
        offset: i64,
    ) -> *mut c_void;
    fn mprotect(address: *mut c_void, length: usize, protection: c_int) -> c_int;
}

/// As Linux has them.
const PAGE: usize = 4096;
const PROT_NONE: c_int = 0;
const PROT_READ: c_int = 1;
const PROT_WRITE: c_int = 2;
const MAP_PRIVATE: c_int = 2;
const MAP_ANONYMOUS: c_int = 0x20;
const NO_FILE: c_int = -1;

thread_local! {
    /// What was given back, by its length.
    static FREE: RefCell<BTreeMap<usize, Vec<*mut u8>>> = RefCell::default();
}

/// Whole pages, lent to one owner.
pub struct Pages {
    start: *mut u8,
    length: usize,
}

impl Pages {
    /// At least so many bytes, and a page at the least.
    pub fn of(least: usize) -> Pages {
        let pages = least.div_ceil(PAGE).max(1).next_power_of_two();
        let length = pages * PAGE;
        let free = FREE.with_borrow_mut(|free| free.get_mut(&length).and_then(Vec::pop));
        let start = free.unwrap_or_else(|| mapped(length));
        Pages { start, length }
    }

    pub fn bytes(&self) -> &[u8] {
        // Mapped for reading, and ours until it is given back.
        unsafe { from_raw_parts(self.start, self.length) }
    }

    pub fn bytes_mut(&mut self) -> &mut [u8] {
        // Mapped for writing, and ours alone until it is given back.
        unsafe { from_raw_parts_mut(self.start, self.length) }
    }
}

impl Drop for Pages {
    fn drop(&mut self) {
        let (start, length) = (self.start, self.length);
        FREE.with_borrow_mut(|free| free.entry(length).or_default().push(start));
    }
}

/// New pages that may be touched, between two that may not.
fn mapped(length: usize) -> *mut u8 {
    let flags = MAP_PRIVATE | MAP_ANONYMOUS;
    // A new mapping touches no memory that is there.
    let outer = unsafe {
        mmap(
            ptr::null_mut(),
            length + 2 * PAGE,
            PROT_NONE,
            flags,
            NO_FILE,
            0,
        )
    };
    assert!(outer as isize != -1, "no memory for {length} bytes");
    // Inside the mapping that was just made.
    let inner = unsafe { outer.cast::<u8>().add(PAGE) };
    let protected = unsafe { mprotect(inner.cast(), length, PROT_READ | PROT_WRITE) };
    assert_eq!(protected, 0, "pages that may be touched");
    inner
}

#[cfg(test)]
mod tests {
    use super::*;
    use std::io::PipeWriter;
    use std::os::fd::AsRawFd;

    extern "C" {
        fn write(file: c_int, bytes: *const c_void, length: usize) -> isize;
    }

    /// Whether the system can read a byte there: it answers with an error where a program would end.
    fn readable(pipe: &PipeWriter, place: *const u8) -> bool {
        unsafe { write(pipe.as_raw_fd(), place.cast(), 1) == 1 }
    }

    #[test]
    fn the_pages_around_cannot_be_read() {
        let (_reader, pipe) = std::io::pipe().unwrap();
        for least in [0, 1, PAGE, PAGE + 1, 65_536, 65_537] {
            let mut pages = Pages::of(least);
            pages.bytes_mut().fill(1);
            let within = pages.bytes().as_ptr_range();
            assert!(pages.bytes().len() >= least);
            assert!(readable(&pipe, within.start));
            assert!(readable(&pipe, within.end.wrapping_sub(1)));
            assert!(!readable(&pipe, within.start.wrapping_sub(1)));
            assert!(!readable(&pipe, within.end));
        }
    }
}
