//! Every readable stream of at most three short tokens.

use crate::carriers::{carried, read_off, NEWLINE};
use crate::grow::Item;
use crate::streams::Counts;
use tokens::judge::text_of;
use tokens::token::Token;
use turso_parser::token::TokenType::*;

const MOST_TOKENS: u32 = 3;

/// Values are made of at most three of these: a character for each way in which the rule and the lexer tell them apart.
const CHARACTERS: [char; 13] = [
    'e', 'X', '\u{E9}', '0', '$', '.', '\'', '"', '?', ':', '-', '>', '\n',
];

/// Holds the cut of each to its kinds and spellings.
pub fn compare() -> Result<Counts, String> {
    let tokens = short_tokens();
    let mut counts = Counts::default();
    for stream in (0..=MOST_TOKENS).flat_map(|length| streams(&tokens, length)) {
        if let Some(items) = items(&stream) {
            let text = text_of(&stream).into_bytes();
            counts.hold(&items, &stream, &text)?;
        }
    }
    Ok(counts)
}

/// All streams of a length, readable or not: the digits of a number choose the tokens.
fn streams(tokens: &[Token], length: u32) -> impl Iterator<Item = Vec<Token>> + '_ {
    let base = tokens.len();
    let token = move |number: usize, place: u32| tokens[number / base.pow(place) % base].clone();
    let stream = move |number: usize| (0..length).map(|place| token(number, place)).collect();
    (0..base.pow(length)).map(stream)
}

/// The items of a readable stream.
fn items(stream: &[Token]) -> Option<Vec<Item>> {
    let lexemes = read_off(stream)?.into_iter();
    let item = |(token, (carrier, spelled)): (&Token, _)| Item {
        token: token.clone(),
        carrier,
        spelled,
    };
    Some(stream.iter().zip(lexemes).map(item).collect())
}

/// The tokens that carry: a short value in TK_ID or TK_BLOB, the marks, a word and an operator, and newlines.
fn short_tokens() -> Vec<Token> {
    let ones: Vec<String> = CHARACTERS.iter().map(char::to_string).collect();
    let twos = longer(&ones);
    let threes = longer(&twos);
    let values = [ones, twos, threes].concat();
    let valued = values
        .iter()
        .flat_map(|value| [Token::id(value), Token::with(TK_BLOB, value)]);
    let marks = [
        TK_COMMA,
        TK_SEMI,
        TK_LP,
        TK_RP,
        TK_DOT,
        TK_LBRACKET,
        TK_RBRACKET,
    ];
    let bare = marks
        .into_iter()
        .chain([TK_BLOB, TK_END, TK_MINUS])
        .map(Token::bare);
    let before_newline = [TK_SEMI, TK_END].map(|kind| Token::with(kind, NEWLINE));
    let all = valued.chain(bare).chain(before_newline);
    all.filter(|token| carried(token).is_some()).collect()
}

/// Each value with each character after it.
fn longer(values: &[String]) -> Vec<String> {
    let with_each = |value: &String| CHARACTERS.map(|character| format!("{value}{character}"));
    values.iter().flat_map(with_each).collect()
}
