//! Cutting texts (request iii): the library's call again and again on the rest, beside the crate's own lexer.

use crate::inputs;
use calls::kinyandoma_lexeme;
use model::record::MOST_BYTES;
use reading::lexer;
use std::ops::Range;
use turso_parser::lexer::Lexer;
use turso_parser::token::TokenType::TK_NONE;

/// What the call answers at the end and at a failure.
const END: u32 = 0;
const STOP: u32 = 8;

/// Who cuts.
#[derive(Clone, Copy, PartialEq)]
pub enum Reader {
    /// The crate's lexer, which looks up each word among its keywords, too.
    Crate,
    /// The library's call.
    Lexeme,
}

pub const READERS: [Reader; 2] = [Reader::Crate, Reader::Lexeme];

/// A text that both cut into the same pieces.
pub struct Text {
    pub name: &'static str,
    pub bytes: Vec<u8>,
}

/// The schema's text, and the longest texts of one sort, which show whether the time grows with the text alone.
pub fn texts() -> Vec<Text> {
    let longest = |row: &[u8]| row.iter().copied().cycle().take(MOST_BYTES).collect();
    let quoted = [b"'", &b"ab''".repeat(MOST_BYTES / 4 - 1)[..], b"ab"].concat();
    let texts = [
        ("schema of 200 tables", schema()),
        ("marks", longest(b",")),
        ("words of a letter", longest(b"a ")),
        ("one word", longest(b"a")),
        ("one number", longest(b"1")),
        ("one quoted text", [&quoted[..], b"'"].concat()),
        ("blanks", longest(b" \n")),
    ];
    texts.map(|(name, bytes)| Text { name, bytes }).into()
}

/// What the crate writes for the tables, a line each.
fn schema() -> Vec<u8> {
    let texts = inputs::tables().into_iter().map(|item| item.expected);
    texts.collect::<Vec<_>>().join("\n").into_bytes()
}

impl Text {
    /// The text once, from end to end; answers how many pieces it has.
    pub fn pass(&self, reader: Reader) -> usize {
        match reader {
            Reader::Crate => theirs(&self.bytes),
            Reader::Lexeme => ours(&self.bytes, &mut |_| {}),
        }
    }

    /// Both cut it into the same pieces; or which text they do not.
    pub fn verify(&self) -> Result<(), String> {
        let cut = lexer::cut(&self.bytes);
        let due: Vec<Range<usize>> = cut
            .pieces
            .iter()
            .map(|piece| piece.start..piece.end)
            .collect();
        let mut found = vec![];
        ours(&self.bytes, &mut |place| found.push(place));
        let counts = READERS.map(|reader| self.pass(reader));
        match cut.refused.is_none() && found == due && counts == [due.len(); 2] {
            true => Ok(()),
            false => Err(format!("{}: not the crate's pieces", self.name)),
        }
    }
}

/// The tokens of the crate's lexer, but for blanks.
fn theirs(text: &[u8]) -> usize {
    let told = |token: &Result<_, _>| match token {
        Ok(turso_parser::lexer::Token { token_type, .. }) => *token_type != TK_NONE,
        Err(_) => false,
    };
    Lexer::new(text).filter(told).count()
}

/// The lexemes that the library finds, each told by its place.
fn ours(text: &[u8], found: &mut impl FnMut(Range<usize>)) -> usize {
    let (mut from, mut count) = (0, 0);
    loop {
        let (mut start, mut rest) = (0, 0);
        let left = &text[from..];
        // The text is valid for its length, and both words are ours.
        let kind = unsafe { kinyandoma_lexeme(left.as_ptr(), left.len(), &mut start, &mut rest) };
        if kind == END || kind == STOP {
            return count;
        }
        found(from + start..from + rest);
        count += 1;
        from += rest;
    }
}
