//! Texts and cuts for a reader.

use crate::lexeme::Lexeme;
use crate::rule::Cut;

/// The text in backticks, with what cannot be seen escaped.
pub fn shown(text: &str) -> String {
    let escaped = |c: char| match c {
        '\'' | '"' => c.to_string(),
        _ => c.escape_debug().to_string(),
    };
    let inner: String = text.chars().map(escaped).collect();
    format!("`{inner}`")
}

/// The lexemes of a cut with their kinds, and where it stops.
pub fn told(text: &[u8], cut: &Cut) -> String {
    let lexeme = |lexeme: &Lexeme| {
        let bytes = String::from_utf8_lossy(&text[lexeme.start..lexeme.end]);
        format!("{} {}", lexeme.kind, shown(&bytes))
    };
    let stop = cut.stop.map(|place| format!("stop at {place}"));
    let parts: Vec<String> = cut.lexemes.iter().map(lexeme).chain(stop).collect();
    match parts.is_empty() {
        true => "nothing".to_string(),
        false => parts.join(", "),
    }
}
