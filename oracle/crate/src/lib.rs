//! turso_parser's own sources, compiled unchanged over stand-ins.

pub mod error;

pub use error::Error;

pub type Result<T, E = Error> = std::result::Result<T, E>;

// The modules ast, lexer and token, from the copies that build.rs made.
include!(concat!(env!("OUT_DIR"), "/modules.rs"));

// VARIANTS: each token type with the number that its source line gives it.
include!(concat!(env!("OUT_DIR"), "/variants.rs"));
