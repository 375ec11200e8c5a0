//! What the crate does with tokens: its spellings, what its stream writes, and lists to try.

pub mod cases;
pub mod encoding;
pub mod judge;
pub mod position;
pub mod random;
pub mod spellings;
pub mod token;
pub mod values;
