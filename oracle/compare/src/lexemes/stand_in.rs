//! A small kinyandoma_lexeme in Rust, written apart from the rule that it is held to, with faults that can be planted in it.

use super::{END, STOP};
use crate::faults::{planted, Fault};
use reading::printed::LONGEST;
use std::slice::{from_raw_parts, from_raw_parts_mut};

/// The numbers of the kinds.
const WORD: u32 = 1;
const NUMBER: u32 = 2;
const QUOTED: u32 = 3;
const BLOB: u32 = 4;
const VARIABLE: u32 = 5;
const OPERATOR: u32 = 6;
const MARK: u32 = 7;

/// A kind, and how many bytes such a lexeme has; none if it is not closed.
type Taken = (u32, Option<usize>);

/// # Safety
/// The text must be valid for its length, and both words may be written.
pub unsafe extern "C" fn kinyandoma_lexeme(
    text: *const u8,
    text_len: usize,
    start: *mut usize,
    rest: *mut usize,
) -> u32 {
    let (kind, from, to) = lexeme(from_raw_parts(text, text_len));
    if planted(Fault::TextTouched) && text_len > 0 {
        from_raw_parts_mut(text.cast_mut(), text_len)[0] ^= 1;
    }
    if planted(Fault::ByteBehindStart) {
        // Behind the word that is lent.
        start.add(1).cast::<u8>().write(0);
    }
    if !(planted(Fault::EndLeavesStart) && kind == END) {
        start.write(from);
    }
    rest.write(to);
    kind
}

/// Number, start and rest.
fn lexeme(text: &[u8]) -> (u32, usize, usize) {
    let end = text.len();
    let at = blanks(text);
    if at == end {
        let start = if planted(Fault::EndAtBlanks) { 0 } else { end };
        return (END, start, end);
    }
    if planted(Fault::LongTextStops) && end > LONGEST {
        return (STOP, at, at);
    }
    let (kind, taken) = taken(&text[at..]);
    let Some(length) = taken else {
        let place = if planted(Fault::FailureAtEnd) {
            end
        } else {
            at
        };
        let rest = if planted(Fault::StopRestAtEnd) {
            end
        } else {
            place
        };
        return (STOP, place, rest);
    };
    let mut rest = at + length;
    if planted(Fault::BlanksBehindSkipped) {
        rest += blanks(&text[rest..]);
    }
    if planted(Fault::MarkRestOneLater) && kind == MARK {
        rest += 1;
    }
    let start = if planted(Fault::StartAtBlanks) { 0 } else { at };
    (told(kind), start, rest)
}

/// The number that a kind is told by.
fn told(kind: u32) -> u32 {
    match kind {
        VARIABLE if planted(Fault::KindsExchanged) => OPERATOR,
        OPERATOR if planted(Fault::KindsExchanged) => VARIABLE,
        _ => kind,
    }
}

/// How many bytes are skipped.
fn blanks(text: &[u8]) -> usize {
    let blank = |byte: &&u8| match byte {
        b' ' => true,
        b'\n' => !planted(Fault::NewlineKept),
        b'\t' => planted(Fault::TabSkipped),
        _ => false,
    };
    text.iter().take_while(blank).count()
}

/// What stands at the start of a text that has a byte.
fn taken(text: &[u8]) -> Taken {
    match text[0] {
        b'[' | b']' if planted(Fault::SquareBracketFails) => (MARK, None),
        b',' | b';' | b'(' | b')' | b'.' | b'[' | b']' => (MARK, Some(1)),
        b'X' | b'x' if opens_blob(text) => (BLOB, blob(text)),
        b'\'' | b'"' | b'`' => (QUOTED, quoted(text)),
        b'0'..=b'9' => (NUMBER, Some(number(text))),
        b'a'..=b'z' | b'A'..=b'Z' | b'_' => (WORD, Some(word_bytes(text))),
        0x80.. if !planted(Fault::WideByteFails) => (WORD, Some(word_bytes(text))),
        b'?' | b':' | b'@' | b'$' => (VARIABLE, variable(text)),
        byte if of_operator(&byte) => (OPERATOR, Some(operator(text))),
        _ => (STOP, None),
    }
}

/// Whether a quote stands behind the letter.
fn opens_blob(text: &[u8]) -> bool {
    let is_open = text[1..].iter().filter(|&&byte| byte == b'\'').count() == 1;
    match () {
        _ if text.get(1) != Some(&b'\'') => false,
        _ if planted(Fault::BlobIsWord) => false,
        _ if planted(Fault::LowercaseBlobIsWord) => text[0] == b'X',
        _ if planted(Fault::OpenBlobIsWord) => !is_open,
        _ => true,
    }
}

/// Through the quote that closes it.
fn blob(text: &[u8]) -> Option<usize> {
    if planted(Fault::BlobQuotesDoubled) {
        return Some(1 + quoted(&text[1..])?);
    }
    let inner = text[2..].iter().position(|&byte| byte == b'\'')?;
    let digits = text[2..2 + inner].iter().all(u8::is_ascii_hexdigit);
    (digits || !planted(Fault::BlobDigitsTested)).then_some(inner + 3)
}

/// To the first like quote that is not doubled: of a row of them the last one closes, if it is odd.
fn quoted(text: &[u8]) -> Option<usize> {
    let closes = |byte: u8| byte == text[0] || planted(Fault::OtherQuoteCloses) && byte == b'"';
    let mut at = 1;
    while at < text.len() {
        let row = text[at..].iter().take_while(|&&byte| closes(byte)).count();
        if row % 2 == 1 || row > 0 && planted(Fault::DoubledQuoteCloses) {
            let row = if planted(Fault::DoubledQuoteCloses) {
                1
            } else {
                row
            };
            return Some(at + row);
        }
        at += row.max(1);
    }
    planted(Fault::UnclosedQuoteTaken).then_some(text.len())
}

/// Digits, and a dot and digits if a digit follows the dot.
fn number(text: &[u8]) -> usize {
    let digits = |from: usize| {
        let digit = |byte: &&u8| byte.is_ascii_digit();
        text[from..].iter().take_while(digit).count()
    };
    let whole = digits(0);
    if text.get(whole) != Some(&b'.') {
        return whole;
    }
    match digits(whole + 1) {
        0 => whole + usize::from(planted(Fault::DotWithoutDigitTaken)),
        _ if planted(Fault::NoFraction) => whole,
        fraction => whole + 1 + fraction,
    }
}

/// All word bytes from the start on.
fn word_bytes(text: &[u8]) -> usize {
    let goes_on = |byte: &&u8| match byte {
        b'$' => !planted(Fault::DollarEndsWord),
        b'_' | 0x80.. => true,
        byte => byte.is_ascii_alphanumeric(),
    };
    text.iter().take_while(goes_on).count()
}

/// The first byte, and all word bytes.
fn variable(text: &[u8]) -> Option<usize> {
    let name = match text[0] {
        b'?' if planted(Fault::QuestionTakesDigits) => number(&text[1..]),
        _ => word_bytes(&text[1..]),
    };
    let alone = name == 0 && text[0] != b'?';
    (!alone || !planted(Fault::LoneVariableFails)).then_some(1 + name)
}

/// All bytes of operators.
fn operator(text: &[u8]) -> usize {
    match planted(Fault::OperatorOfOneByte) {
        true => 1,
        false => text.iter().take_while(|byte| of_operator(byte)).count(),
    }
}

/// Whether it occurs in an operator.
fn of_operator(byte: &u8) -> bool {
    b"+-*/%=<>!&|~".contains(byte)
}
