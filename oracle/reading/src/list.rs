//! The list of lexemes of section 5. It is stricter than the rule, and written apart from it.

use crate::lexeme::{Kind, MARKS, OPERATORS};

/// The kind of lexeme that these bytes are, as a whole; none if they are no lexeme.
pub fn kind_of(lexeme: &str) -> Option<Kind> {
    let bytes = lexeme.as_bytes();
    let sorts = [
        (Kind::Word, word(bytes)),
        (Kind::Number, number(bytes)),
        (Kind::Quoted, quoted(bytes)),
        (Kind::Blob, blob(bytes)),
        (Kind::Variable, variable(bytes)),
        (Kind::Operator, OPERATORS.contains(&lexeme)),
        (Kind::Mark, MARKS.contains(&lexeme)),
    ];
    let sort = sorts.into_iter().find(|(_, is)| *is)?;
    Some(sort.0)
}

/// A letter, `_` or a byte from 80 (hex) on, then those, digits or `$`.
fn word(bytes: &[u8]) -> bool {
    matches!(bytes, [first, rest @ ..] if name_start(*first) && rest.iter().all(name_byte))
}

/// Digits, or digits, a dot and digits.
fn number(bytes: &[u8]) -> bool {
    let mut parts = bytes.split(|&byte| byte == b'.');
    parts.by_ref().take(2).all(digits) && parts.next().is_none()
}

/// A quote, then anything in which that quote is doubled, then the quote.
fn quoted(bytes: &[u8]) -> bool {
    match bytes {
        [first @ (b'\'' | b'"' | b'`'), inner @ .., last] => {
            first == last && doubled(inner, *first)
        }
        _ => false,
    }
}

/// Whether each such quote has its like right after it.
fn doubled(inner: &[u8], quote: u8) -> bool {
    let mut rest = inner.iter();
    while rest.any(|&byte| byte == quote) {
        if rest.next() != Some(&quote) {
            return false;
        }
    }
    true
}

/// `X'` or `x'`, an even number of hex digits, and a quote.
fn blob(bytes: &[u8]) -> bool {
    match bytes {
        [b'X' | b'x', b'\'', hex @ .., b'\''] => {
            hex.len() % 2 == 0 && hex.iter().all(u8::is_ascii_hexdigit)
        }
        _ => false,
    }
}

/// `?` and digits or none; or `:`, `@`, `$` and at least one word byte.
fn variable(bytes: &[u8]) -> bool {
    match bytes {
        [b'?', number @ ..] => number.iter().all(u8::is_ascii_digit),
        [b':' | b'@' | b'$', name @ ..] => !name.is_empty() && name.iter().all(name_byte),
        _ => false,
    }
}

/// At least one digit, and nothing else.
fn digits(bytes: &[u8]) -> bool {
    !bytes.is_empty() && bytes.iter().all(u8::is_ascii_digit)
}

/// What a word begins with.
fn name_start(byte: u8) -> bool {
    matches!(byte, b'A'..=b'Z' | b'a'..=b'z' | b'_' | 0x80..)
}

/// What a word or a variable goes on with.
fn name_byte(byte: &u8) -> bool {
    name_start(*byte) || matches!(byte, b'0'..=b'9' | b'$')
}
