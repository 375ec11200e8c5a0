//! The reading rule of section 5: what a lexeme is, and where it ends, goes by its first bytes alone.

use crate::lexeme::{Kind, Lexeme, KINDS, OPERATORS};

/// The lexemes of a text in order, and the first byte of what could not be read, if the reading failed.
#[derive(Clone, Debug, PartialEq)]
pub struct Cut {
    pub lexemes: Vec<Lexeme>,
    pub stop: Option<usize>,
}

/// The rule as a table: what is skipped, and how each kind is read. The first row that fits is taken.
#[derive(Clone, Copy)]
pub struct Rule {
    pub skips: fn(u8) -> bool,
    pub rows: [Row; KINDS.len()],
}

/// How lexemes of one kind are read.
#[derive(Clone, Copy)]
pub struct Row {
    pub kind: Kind,
    /// Whether such a lexeme begins here.
    pub begins: fn(&[u8]) -> bool,
    /// How many bytes it takes; none if it is not closed.
    pub takes: fn(&[u8]) -> Option<usize>,
}

/// The rule as the document has it.
pub const DOCUMENT: Rule = Rule {
    skips: space_or_newline,
    rows: [
        Row {
            kind: Kind::Mark,
            begins: begins_mark,
            takes: one_byte,
        },
        Row {
            kind: Kind::Blob,
            begins: begins_blob,
            takes: through_next_quote,
        },
        Row {
            kind: Kind::Quoted,
            begins: begins_quoted,
            takes: to_quote_not_doubled,
        },
        Row {
            kind: Kind::Number,
            begins: begins_number,
            takes: digits_and_fraction,
        },
        Row {
            kind: Kind::Word,
            begins: begins_word,
            takes: all_word_bytes,
        },
        Row {
            kind: Kind::Variable,
            begins: begins_variable,
            takes: first_and_word_bytes,
        },
        Row {
            kind: Kind::Operator,
            begins: begins_operator,
            takes: all_operator_bytes,
        },
    ],
};

impl Rule {
    /// Cuts a text to its end, or to the first failure.
    pub fn cut(&self, text: &[u8]) -> Cut {
        let mut lexemes = Vec::new();
        let mut start = self.skipped(text, 0);
        while start < text.len() {
            let Some((kind, length)) = self.first(&text[start..]) else {
                let stop = Some(start);
                return Cut { lexemes, stop };
            };
            assert!(length > 0, "a lexeme has bytes");
            let end = start + length;
            lexemes.push(Lexeme { kind, start, end });
            start = self.skipped(text, end);
        }
        let stop = None;
        Cut { lexemes, stop }
    }

    /// The row of a kind, to be exchanged.
    pub fn row(&mut self, kind: Kind) -> &mut Row {
        let mut rows = self.rows.iter_mut();
        rows.find(|row| row.kind == kind).expect("a row a kind")
    }

    /// Where the next lexeme begins, from `at` on.
    fn skipped(&self, text: &[u8], at: usize) -> usize {
        at + run(&text[at..], self.skips)
    }

    /// The kind and the length of the lexeme at the start; none if it cannot be read.
    fn first(&self, text: &[u8]) -> Option<(Kind, usize)> {
        let row = self.rows.iter().find(|row| (row.begins)(text))?;
        Some((row.kind, (row.takes)(text)?))
    }
}

/// How many bytes of this sort stand at the start.
pub fn run(text: &[u8], sort: fn(u8) -> bool) -> usize {
    let other = text.iter().position(|&byte| !sort(byte));
    other.unwrap_or(text.len())
}

/// What is skipped between lexemes.
fn space_or_newline(byte: u8) -> bool {
    byte == b' ' || byte == b'\n'
}

/// One of the seven marks.
fn begins_mark(text: &[u8]) -> bool {
    matches!(text[0], b',' | b';' | b'(' | b')' | b'.' | b'[' | b']')
}

/// A mark is one byte.
fn one_byte(_: &[u8]) -> Option<usize> {
    Some(1)
}

/// X or x with a quote next.
fn begins_blob(text: &[u8]) -> bool {
    matches!(text, [b'X' | b'x', b'\'', ..])
}

/// Through the next quote after the opening one; what stands between is not looked at.
fn through_next_quote(text: &[u8]) -> Option<usize> {
    let opening = b"X'".len();
    let inner = text[opening..].iter().position(|&byte| byte == b'\'')?;
    Some(opening + inner + 1)
}

/// One of the three quotes.
fn begins_quoted(text: &[u8]) -> bool {
    matches!(text[0], b'\'' | b'"' | b'`')
}

/// To the first like quote that is not doubled.
fn to_quote_not_doubled(text: &[u8]) -> Option<usize> {
    let quote = text[0];
    let mut at = 1;
    loop {
        at += text[at..].iter().position(|&byte| byte == quote)? + 1;
        if text.get(at) != Some(&quote) {
            return Some(at);
        }
        at += 1;
    }
}

/// A digit.
fn begins_number(text: &[u8]) -> bool {
    digit(text[0])
}

/// Digits, and a dot and digits if a digit follows the dot.
fn digits_and_fraction(text: &[u8]) -> Option<usize> {
    let whole = run(text, digit);
    let fraction = match &text[whole..] {
        [b'.', rest @ ..] => run(rest, digit),
        _ => 0,
    };
    let dot = usize::from(fraction > 0);
    Some(whole + dot + fraction)
}

/// A letter, `_` or a byte from 80 (hex) on.
fn begins_word(text: &[u8]) -> bool {
    word_byte(text[0]) && !digit(text[0]) && text[0] != b'$'
}

/// A word takes all word bytes.
fn all_word_bytes(text: &[u8]) -> Option<usize> {
    Some(run(text, word_byte))
}

/// One of the four first bytes of variables.
fn begins_variable(text: &[u8]) -> bool {
    matches!(text[0], b'?' | b':' | b'@' | b'$')
}

/// A variable takes its first byte and all word bytes after it.
fn first_and_word_bytes(text: &[u8]) -> Option<usize> {
    Some(1 + run(&text[1..], word_byte))
}

/// A byte of any listed operator.
fn begins_operator(text: &[u8]) -> bool {
    operator_byte(text[0])
}

/// An operator takes all bytes that occur in operators.
fn all_operator_bytes(text: &[u8]) -> Option<usize> {
    Some(run(text, operator_byte))
}

/// A decimal digit.
pub fn digit(byte: u8) -> bool {
    byte.is_ascii_digit()
}

/// A letter, a digit, `_`, `$` or a byte from 80 (hex) on.
pub fn word_byte(byte: u8) -> bool {
    byte.is_ascii_alphanumeric() || byte == b'_' || byte == b'$' || byte >= 0x80
}

/// A byte of any listed operator.
pub fn operator_byte(byte: u8) -> bool {
    let mut operators = OPERATORS.iter();
    operators.any(|operator| operator.as_bytes().contains(&byte))
}
