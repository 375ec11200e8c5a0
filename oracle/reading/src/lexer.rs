//! The crate's own lexer: how it cuts a text.

use turso_parser::lexer::Lexer;
use turso_parser::token::TokenType::{self, TK_NONE};

/// What the lexer made of a text, blanks and comments left out, to its end or to the first refusal.
pub struct Theirs {
    pub pieces: Vec<Piece>,
    /// The name of the error.
    pub refused: Option<String>,
}

/// A token of the lexer, and where it stands.
#[derive(Clone, Copy, Debug, PartialEq)]
pub struct Piece {
    pub kind: TokenType,
    pub start: usize,
    pub end: usize,
}

/// Cuts a text as the crate does.
pub fn cut(text: &[u8]) -> Theirs {
    let mut lexer = Lexer::new(text);
    let mut pieces = Vec::new();
    let mut start = 0;
    while let Some(next) = lexer.next() {
        let Ok(token) = next else {
            let refused = next.err().map(|error| name(&format!("{error:?}")));
            return Theirs { pieces, refused };
        };
        let end = text.len() - lexer.remaining().len();
        assert_eq!(token.as_bytes(), &text[start..end], "a token's bytes");
        let kind = token.token_type;
        if kind != TK_NONE {
            pieces.push(Piece { kind, start, end });
        }
        start = end;
    }
    let refused = None;
    Theirs { pieces, refused }
}

/// The error's name without what it tells.
fn name(error: &str) -> String {
    error.split(' ').next().unwrap_or("").to_string()
}
