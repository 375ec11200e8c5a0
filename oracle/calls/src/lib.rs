//! The calls of libkinyandoma.a, as include/kinyandoma.h declares them.

use std::ops::Range;

extern "C" {
    pub fn kinyandoma_measure(
        tree: *const u8,
        tree_len: usize,
        text: *const u8,
        text_len: usize,
    ) -> u64;
    pub fn kinyandoma_render(
        tree: *const u8,
        tree_len: usize,
        text: *const u8,
        text_len: usize,
        out: *mut u8,
        out_len: usize,
    ) -> u64;
    pub fn kinyandoma_measure_with(
        options: u32,
        tree: *const u8,
        tree_len: usize,
        text: *const u8,
        text_len: usize,
    ) -> u64;
    pub fn kinyandoma_render_with(
        options: u32,
        tree: *const u8,
        tree_len: usize,
        text: *const u8,
        text_len: usize,
        out: *mut u8,
        out_len: usize,
    ) -> u64;
    pub fn kinyandoma_profile(
        options: u32,
        tree: *const u8,
        tree_len: usize,
        text: *const u8,
        text_len: usize,
    ) -> u64;
    pub fn kinyandoma_append(
        record: *mut u8,
        record_len: usize,
        out: *mut u8,
        out_len: usize,
        token: u16,
        value: *const u8,
        value_len: usize,
    ) -> u64;
    pub fn kinyandoma_lexeme(
        text: *const u8,
        text_len: usize,
        start: *mut usize,
        rest: *mut usize,
    ) -> u32;
    pub fn kinyandoma_render_jobs(
        options: u32,
        jobs: *mut Job,
        count: usize,
        trees: *const u8,
        trees_len: usize,
        text: *const u8,
        text_len: usize,
        out: *mut u8,
        out_len: usize,
    ) -> u64;
}

/// One tree of a shared buffer, and what became of it.
#[repr(C)]
#[derive(Clone, Copy, Debug, Default, PartialEq)]
pub struct Job {
    /// Where the tree begins in the buffer, and how many bytes it has. The call leaves both as they are.
    pub tree_start: u64,
    pub tree_len: u64,
    /// What the single call answers: number and place.
    pub refusal: u64,
    pub place: u64,
    /// Where in the output the tree's text begins; of a refused one, where the next begins.
    pub out_start: u64,
}

impl Job {
    /// A job for these bytes of the buffer, before the call.
    pub fn new(tree_start: u64, tree_len: u64) -> Job {
        Job {
            tree_start,
            tree_len,
            ..Job::default()
        }
    }
}

/// The bytes of a stream record: the bit, then count, line and column.
pub const RECORD: usize = 25;
/// Where its numbers stand, each little-endian.
pub const COUNT: Range<usize> = 1..9;
pub const LINE: Range<usize> = 9..17;
pub const COLUMN: Range<usize> = 17..25;

/// What a call answers.
#[derive(Clone, Copy, Debug, PartialEq)]
pub struct Answer {
    pub number: u32,
    pub place: u32,
}

impl Answer {
    /// From number * 2^32 + place.
    pub fn unpacked(packed: u64) -> Answer {
        Answer {
            number: (packed >> 32) as u32,
            place: packed as u32,
        }
    }
}

/// What a stream record says.
#[derive(Clone, Copy, Debug, PartialEq)]
pub struct Stream {
    /// Whether the next token is written without a space before it.
    pub spaced: bool,
    /// The bytes written so far, the newlines among them, and the bytes since the last newline.
    pub count: u64,
    pub line: u64,
    pub column: u64,
}

impl Stream {
    /// Nothing is written.
    pub const FRESH: Stream = Stream {
        spaced: true,
        count: 0,
        line: 0,
        column: 0,
    };

    /// The record as it crosses to the library.
    pub fn record(&self) -> [u8; RECORD] {
        let mut bytes = [0; RECORD];
        bytes[0] = u8::from(self.spaced);
        bytes[COUNT].copy_from_slice(&self.count.to_le_bytes());
        bytes[LINE].copy_from_slice(&self.line.to_le_bytes());
        bytes[COLUMN].copy_from_slice(&self.column.to_le_bytes());
        bytes
    }
}

/// A number of a record, which must have all its bytes.
pub fn number(record: &[u8], place: Range<usize>) -> u64 {
    u64::from_le_bytes(record[place].try_into().expect("eight bytes"))
}
