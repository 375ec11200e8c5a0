//! What the program `cut` of request iii prints for a text, by the rule of `rule.rs` and reading R17.

use crate::lexeme::Lexeme;
use crate::rule::{Cut, DOCUMENT};

/// The longest text that is cut.
pub const LONGEST: usize = 65_536;
/// What a longer one prints.
const TOO_LONG: &str = "2 65536\n";
/// What is printed where standard input cannot be read.
pub const UNREADABLE: &str = "unreadable\n";

/// All lines for a text: a lexeme each, then where the reading failed, if it did.
pub fn printed(text: &[u8]) -> String {
    match text.len() > LONGEST {
        true => TOO_LONG.to_string(),
        false => lines(&DOCUMENT.cut(text)),
    }
}

/// The lines of a cut.
fn lines(cut: &Cut) -> String {
    let stop = cut.stop.map(|position| format!("stop {position}\n"));
    cut.lexemes.iter().map(line).chain(stop).collect()
}

/// Kind, start and length.
fn line(lexeme: &Lexeme) -> String {
    let Lexeme { kind, start, end } = lexeme;
    format!("{kind} {start} {}\n", end - start)
}
