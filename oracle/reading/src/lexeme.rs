//! What a lexeme is, for the rule, the list and the streams alike.

use std::fmt;

#[derive(Clone, Copy, Debug, PartialEq, Eq, PartialOrd, Ord)]
pub enum Kind {
    Word,
    Number,
    Quoted,
    Blob,
    Variable,
    Operator,
    Mark,
}

pub const KINDS: [Kind; 7] = [
    Kind::Word,
    Kind::Number,
    Kind::Quoted,
    Kind::Blob,
    Kind::Variable,
    Kind::Operator,
    Kind::Mark,
];

/// The listed operators.
pub const OPERATORS: [&str; 21] = [
    "+", "-", "*", "/", "%", "=", "==", "<>", "!=", "<", "<=", ">", ">=", "<<", ">>", "&", "|",
    "||", "~", "->", "->>",
];

/// The listed marks.
pub const MARKS: [&str; 7] = [",", ";", "(", ")", ".", "[", "]"];

/// The mark that does not stand beside a number.
pub const DOT: &str = ".";

/// A lexeme of a text, and where it stands there.
#[derive(Clone, Copy, Debug, PartialEq)]
pub struct Lexeme {
    pub kind: Kind,
    pub start: usize,
    pub end: usize,
}

/// A lexeme by itself.
#[derive(Clone, Debug, PartialEq)]
pub struct Spelled {
    pub kind: Kind,
    pub text: String,
}

impl Kind {
    /// The place in `KINDS`.
    pub fn index(self) -> usize {
        self as usize
    }
}

impl Spelled {
    /// The lexeme with this kind and text.
    pub fn new(kind: Kind, text: &str) -> Spelled {
        let text = text.to_string();
        Spelled { kind, text }
    }
}

impl fmt::Display for Kind {
    fn fmt(&self, f: &mut fmt::Formatter<'_>) -> fmt::Result {
        write!(f, "{}", format!("{self:?}").to_lowercase())
    }
}
