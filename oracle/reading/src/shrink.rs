//! Makes a stream smaller as long as something holds of it.

use tokens::token::{kind_of, Token};
use turso_parser::token::TokenType::TK_ID;

/// The smallest stream that is reached by one step after another, of which it still holds.
pub fn smallest(stream: &[Token], holds: &dyn Fn(&[Token]) -> bool) -> Vec<Token> {
    let mut now = stream.to_vec();
    while let Some(next) = steps(&now).into_iter().find(|next| holds(next)) {
        now = next;
    }
    now
}

/// Every stream that is one step smaller: some tokens less, or one token simpler.
fn steps(stream: &[Token]) -> Vec<Vec<Token>> {
    let shorter = without_parts(stream);
    let simpler = (0..stream.len()).flat_map(|place| {
        let with = move |token| exchanged(stream, place, token);
        simpler_tokens(&stream[place]).into_iter().map(with)
    });
    shorter.into_iter().chain(simpler).collect()
}

/// The stream with another token in a place.
fn exchanged(stream: &[Token], place: usize, token: Token) -> Vec<Token> {
    let mut next = stream.to_vec();
    next[place] = token;
    next
}

/// The token with a shorter or plainer value, and TK_ID for another kind with no fixed spelling.
fn simpler_tokens(token: &Token) -> Vec<Token> {
    let Some(value) = &token.value else {
        return Vec::new();
    };
    let chars: Vec<char> = value.chars().collect();
    let mut values = without_parts(&chars);
    values.extend(plainer(&chars));
    let number = token.number;
    let with = |chars: Vec<char>| Token {
        number,
        value: Some(chars.into_iter().collect()),
    };
    let mut simpler: Vec<Token> = values.into_iter().map(with).collect();
    let kind = kind_of(number).expect("a known token number");
    if kind != TK_ID && kind.as_str().is_none() {
        simpler.push(Token::id(value));
    }
    simpler
}

/// The row without its first half, without its second, and without each one of its elements.
fn without_parts<T: Clone>(row: &[T]) -> Vec<Vec<T>> {
    let half = row.len() / 2;
    let mut shorter = Vec::new();
    if half > 1 {
        shorter.push(row[half..].to_vec());
        shorter.push(row[..half].to_vec());
    }
    shorter.extend((0..row.len()).map(|place| [&row[..place], &row[place + 1..]].concat()));
    shorter
}

/// The characters with one digit made 0, or one letter or wide character made `a`.
fn plainer(chars: &[char]) -> Vec<Vec<char>> {
    let plain = |c: char| match c {
        '0' | 'a' => None,
        '1'..='9' => Some('0'),
        _ if c.is_ascii_alphabetic() || !c.is_ascii() => Some('a'),
        _ => None,
    };
    let at = |place: usize| {
        let mut next = chars.to_vec();
        next[place] = plain(chars[place])?;
        Some(next)
    };
    (0..chars.len()).filter_map(at).collect()
}
