//! The reading rule of document 01, readable streams, and what else cuts their texts.

pub mod broken;
pub mod carriers;
pub mod cases;
pub mod faults;
pub mod grow;
pub mod lexeme;
pub mod lexer;
pub mod list;
pub mod listed;
pub mod partings;
pub mod printed;
pub mod rule;
pub mod short;
pub mod shown;
pub mod shrink;
pub mod sqlite;
pub mod streams;
