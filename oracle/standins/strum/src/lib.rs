//! Stand-in: the one derive that the sources name through this crate.

pub use strum_macros::Display;
