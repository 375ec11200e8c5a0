//! The encoding of a text or a value, by Rust's own check of UTF-8, and the refusals that come of it.

use std::str::Utf8Error;

/// Most bytes of a text or a value.
pub const LONGEST: usize = 65_536;
/// The refusal of what is too long, or was never UTF-8.
pub const NOT_UTF8: u32 = 2;
/// The refusal of what ends in the middle of a character (request ii).
pub const CUT_OFF: u32 = 12;

/// A refusal number and its place.
pub type Refusal = (u32, u32);

/// The bytes as text, or why they are none. The length is looked at first.
pub fn text_in(bytes: &[u8]) -> Result<&str, Refusal> {
    if bytes.len() > LONGEST {
        return Err((NOT_UTF8, LONGEST as u32));
    }
    std::str::from_utf8(bytes).map_err(refusal)
}

/// Rust tells the length of what is wrong, but not where the bytes end before anything is wrong: those are cut off.
pub fn refusal(error: Utf8Error) -> Refusal {
    let number = match error.error_len() {
        None => CUT_OFF,
        Some(_) => NOT_UTF8,
    };
    (number, error.valid_up_to() as u32)
}
