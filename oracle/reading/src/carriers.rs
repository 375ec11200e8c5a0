//! Which streams are readable: what each token carries, and no dot beside a number.

use crate::lexeme::{Kind, Spelled, DOT};
use crate::list;
use std::fmt;
use tokens::token::{kind_of, Token};
use turso_parser::token::TokenType::TK_BLOB;

/// How a token carries its lexeme.
#[derive(Clone, Copy, Debug, PartialEq, Eq, PartialOrd, Ord)]
pub enum Carrier {
    /// A fixed spelling, no value.
    Fixed,
    /// A fixed word or `;`, and a value of one newline.
    WithNewline,
    /// A kind with no fixed spelling, and the lexeme as its value.
    Value,
    /// TK_BLOB and a blob.
    Blob,
    /// TK_BLOB with no value.
    NoBlob,
}

pub const CARRIERS: [Carrier; 5] = [
    Carrier::Fixed,
    Carrier::WithNewline,
    Carrier::Value,
    Carrier::Blob,
    Carrier::NoBlob,
];

impl fmt::Display for Carrier {
    fn fmt(&self, f: &mut fmt::Formatter<'_>) -> fmt::Result {
        let told = match self {
            Carrier::Fixed => "fixed spelling, no value",
            Carrier::WithNewline => "fixed word or `;`, a newline",
            Carrier::Value => "no fixed spelling, a lexeme",
            Carrier::Blob => "TK_BLOB, a blob",
            Carrier::NoBlob => "TK_BLOB, no value",
        };
        write!(f, "{told}")
    }
}

pub const NEWLINE: &str = "\n";

/// What TK_BLOB writes if it has no value.
pub const EMPTY_BLOB: &str = "X''";

/// The carriers and lexemes of a readable stream; none of any other.
pub fn read_off(stream: &[Token]) -> Option<Vec<(Carrier, Spelled)>> {
    let carried: Option<Vec<_>> = stream.iter().map(carried).collect();
    let lexemes = carried?;
    let beside = |pair: &[(Carrier, Spelled)]| dot_beside_number(&pair[0].1, &pair[1].1);
    (!lexemes.windows(2).any(beside)).then_some(lexemes)
}

/// What a token carries; none if it stands in no readable stream.
pub fn carried(token: &Token) -> Option<(Carrier, Spelled)> {
    let kind = kind_of(token.number)?;
    let value = token.value.as_deref();
    if kind == TK_BLOB {
        return in_blob(value);
    }
    match kind.as_str() {
        Some(fixed) => in_fixed(fixed, value),
        None => in_value(value?),
    }
}

/// A fixed spelling, and perhaps a newline.
fn in_fixed(fixed: &str, value: Option<&str>) -> Option<(Carrier, Spelled)> {
    let kind = list::kind_of(fixed)?;
    let bare = matches!(kind, Kind::Word | Kind::Operator | Kind::Mark);
    let before_newline = kind == Kind::Word || fixed == ";";
    let carrier = match value {
        None if bare => Carrier::Fixed,
        Some(NEWLINE) if before_newline => Carrier::WithNewline,
        _ => return None,
    };
    Some((carrier, Spelled::new(kind, fixed)))
}

/// A value of one lexeme other than a mark.
fn in_value(value: &str) -> Option<(Carrier, Spelled)> {
    let kind = list::kind_of(value)?;
    (kind != Kind::Mark).then(|| (Carrier::Value, Spelled::new(kind, value)))
}

/// A blob, or none.
fn in_blob(value: Option<&str>) -> Option<(Carrier, Spelled)> {
    let carrier = match value {
        None => Carrier::NoBlob,
        Some(_) => Carrier::Blob,
    };
    let blob = value.unwrap_or(EMPTY_BLOB);
    let is_blob = list::kind_of(blob) == Some(Kind::Blob);
    is_blob.then(|| (carrier, Spelled::new(Kind::Blob, blob)))
}

/// Whether of two neighbours one is a dot and the other a number.
fn dot_beside_number(first: &Spelled, second: &Spelled) -> bool {
    let dot_and_number = |a: &Spelled, b: &Spelled| a.text == DOT && b.kind == Kind::Number;
    dot_and_number(first, second) || dot_and_number(second, first)
}
