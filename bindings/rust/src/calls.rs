//! The calls of libkinyandoma.a, as include/kinyandoma.h declares them, and each as a safe function.

/// The bytes of a stream record: the bit, then count, line and column.
pub const RECORD: usize = 25;

extern "C" {
    fn kinyandoma_measure(
        tree: *const u8,
        tree_len: usize,
        text: *const u8,
        text_len: usize,
    ) -> u64;
    fn kinyandoma_render(
        tree: *const u8,
        tree_len: usize,
        text: *const u8,
        text_len: usize,
        out: *mut u8,
        out_len: usize,
    ) -> u64;
    fn kinyandoma_measure_with(
        options: u32,
        tree: *const u8,
        tree_len: usize,
        text: *const u8,
        text_len: usize,
    ) -> u64;
    fn kinyandoma_render_with(
        options: u32,
        tree: *const u8,
        tree_len: usize,
        text: *const u8,
        text_len: usize,
        out: *mut u8,
        out_len: usize,
    ) -> u64;
    fn kinyandoma_profile(
        options: u32,
        tree: *const u8,
        tree_len: usize,
        text: *const u8,
        text_len: usize,
    ) -> u64;
    fn kinyandoma_append(
        record: *mut u8,
        record_len: usize,
        out: *mut u8,
        out_len: usize,
        token: u16,
        value: *const u8,
        value_len: usize,
    ) -> u64;
    fn kinyandoma_lexeme(
        text: *const u8,
        text_len: usize,
        start: *mut usize,
        rest: *mut usize,
    ) -> u32;
    fn kinyandoma_render_jobs(
        options: u32,
        jobs: *mut Job,
        count: usize,
        trees: *const u8,
        trees_len: usize,
        text: *const u8,
        text_len: usize,
        out: *mut u8,
        out_len: usize,
    ) -> u64;
}

/// struct kinyandoma_job of include/kinyandoma.h: where a tree stands, and what became of it.
#[repr(C)]
#[derive(Clone, Copy, Debug, Default, PartialEq, Eq)]
pub struct Job {
    pub tree_start: u64,
    pub tree_len: u64,
    pub refusal: u64,
    pub place: u64,
    pub out_start: u64,
}

/// What a call answers: its number, 0 if it is done, and its place.
#[derive(Clone, Copy, Debug, PartialEq, Eq)]
pub struct Answer {
    pub number: u32,
    pub place: u32,
}

impl Answer {
    /// From number * 2^32 + place.
    fn unpacked(packed: u64) -> Answer {
        Answer {
            number: (packed >> 32) as u32,
            place: packed as u32,
        }
    }
}

// A slice is what the header asks for: its pointer is not null, its length is at most 2^63 - 1, and a slice that may be
// written overlaps no other. Nothing else is asked of a caller.

/// How long the text of a tree is.
pub fn measure(tree: &[u8], text: &[u8]) -> Answer {
    // Safe: both slices are valid for their lengths.
    let packed =
        unsafe { kinyandoma_measure(tree.as_ptr(), tree.len(), text.as_ptr(), text.len()) };
    Answer::unpacked(packed)
}

/// The text of a tree, written to `out`.
pub fn render(tree: &[u8], text: &[u8], out: &mut [u8]) -> Answer {
    // Safe: the slices are valid for their lengths, and `out` is ours alone.
    let packed = unsafe {
        kinyandoma_render(
            tree.as_ptr(),
            tree.len(),
            text.as_ptr(),
            text.len(),
            out.as_mut_ptr(),
            out.len(),
        )
    };
    Answer::unpacked(packed)
}

/// A call that takes options, a tree and its text.
type OverTree = unsafe extern "C" fn(u32, *const u8, usize, *const u8, usize) -> u64;

/// What such a call answers.
fn asked(call: OverTree, options: u32, tree: &[u8], text: &[u8]) -> Answer {
    // Safe: both slices are valid for their lengths.
    let packed = unsafe {
        call(
            options,
            tree.as_ptr(),
            tree.len(),
            text.as_ptr(),
            text.len(),
        )
    };
    Answer::unpacked(packed)
}

/// How long the text of a tree is, by a call with options.
pub fn measure_with(options: u32, tree: &[u8], text: &[u8]) -> Answer {
    asked(kinyandoma_measure_with, options, tree, text)
}

/// The text of a tree, written to `out` by a call with options.
pub fn render_with(options: u32, tree: &[u8], text: &[u8], out: &mut [u8]) -> Answer {
    // Safe: the slices are valid for their lengths, and `out` is ours alone.
    let packed = unsafe {
        kinyandoma_render_with(
            options,
            tree.as_ptr(),
            tree.len(),
            text.as_ptr(),
            text.len(),
            out.as_mut_ptr(),
            out.len(),
        )
    };
    Answer::unpacked(packed)
}

/// How long the text of a tree of the field profile is, by a call with options.
pub fn profile(options: u32, tree: &[u8], text: &[u8]) -> Answer {
    asked(kinyandoma_profile, options, tree, text)
}

/// The texts of many trees, written to `out` one behind the other; answers the bytes written in all.
pub fn render_jobs(
    options: u32,
    jobs: &mut [Job],
    trees: &[u8],
    text: &[u8],
    out: &mut [u8],
) -> usize {
    // Safe: the slices are valid for their lengths, a `Job` is laid out as in C, and `jobs` and `out` are ours alone.
    let written = unsafe {
        kinyandoma_render_jobs(
            options,
            jobs.as_mut_ptr(),
            jobs.len(),
            trees.as_ptr(),
            trees.len(),
            text.as_ptr(),
            text.len(),
            out.as_mut_ptr(),
            out.len(),
        )
    };
    written as usize
}

/// One token, appended behind what the stream has written to `out`.
pub fn append(record: &mut [u8; RECORD], out: &mut [u8], token: u16, value: &[u8]) -> Answer {
    // Safe: the slices are valid for their lengths, and `record` and `out` are ours alone.
    let packed = unsafe {
        kinyandoma_append(
            record.as_mut_ptr(),
            record.len(),
            out.as_mut_ptr(),
            out.len(),
            token,
            value.as_ptr(),
            value.len(),
        )
    };
    Answer::unpacked(packed)
}

/// What kinyandoma_lexeme answers at a failure.
pub const STOP: u32 = 8;

/// What kinyandoma_lexeme finds: the number of a kind, of the end or of a failure, where it starts, and where the rest does.
pub struct Cut {
    pub number: u32,
    pub start: usize,
    pub rest: usize,
}

/// One lexeme of a text.
pub fn lexeme(text: &[u8]) -> Cut {
    let (mut start, mut rest) = (0, 0);
    // Safe: the slice is valid for its length, and both numbers are ours alone.
    let number = unsafe { kinyandoma_lexeme(text.as_ptr(), text.len(), &mut start, &mut rest) };
    Cut {
        number,
        start,
        rest,
    }
}
