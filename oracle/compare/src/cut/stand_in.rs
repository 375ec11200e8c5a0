//! A small `cut` in Rust, with faults that can be planted in it.

use super::Input;
use crate::faults::{planted, Fault};
use reading::lexeme::{Kind, Lexeme};
use reading::printed::{LONGEST, UNREADABLE};
use reading::rule::DOCUMENT;
use std::io;

/// What it prints.
pub fn run(input: &Input) -> io::Result<Vec<u8>> {
    let told = match input {
        Input::Text(text) => told(text),
        _ if planted(Fault::UnreadableIsEmpty) => String::new(),
        _ => UNREADABLE.to_string(),
    };
    Ok(told.into_bytes())
}

/// For a text that could be read.
fn told(text: &[u8]) -> String {
    let less = usize::from(planted(Fault::LongestTextNotCut));
    let more = usize::from(planted(Fault::LongerTextCut));
    let too_long = text.len() > LONGEST + more - less;
    match too_long {
        true if planted(Fault::LinesBeforeTooLong) => lines(text) + "2 65536\n",
        true => "2 65536\n".to_string(),
        false => lines(text),
    }
}

/// The lexemes, and the failure.
fn lines(text: &[u8]) -> String {
    let cut = DOCUMENT.cut(text);
    let mut lines: Vec<String> = cut.lexemes.iter().map(line).collect();
    match cut.stop {
        Some(place) if planted(Fault::StopWithLength) => lines.push(format!("stop {place} 1")),
        Some(_) if planted(Fault::StopWithoutPlace) => lines.push("stop".to_string()),
        Some(place) => lines.push(format!("stop {place}")),
        None if planted(Fault::EndPrinted) => lines.push(format!("end {} 0", text.len())),
        None => {}
    }
    let last = match lines.is_empty() || planted(Fault::LastLineOpen) {
        true => "",
        false => "\n",
    };
    lines.join("\n") + last
}

/// Kind, start and length.
fn line(lexeme: &Lexeme) -> String {
    let Lexeme { kind, start, end } = *lexeme;
    let kind = match kind {
        Kind::Quoted if planted(Fault::KindsPrintedExchanged) => Kind::Blob,
        kind => kind,
    };
    match planted(Fault::LengthIsEnd) {
        true => format!("{kind} {start} {end}"),
        false => format!("{kind} {start} {}", end - start),
    }
}
