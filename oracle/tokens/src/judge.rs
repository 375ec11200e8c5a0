//! The crate's own stream, asked from outside.

use crate::token::Token;
use turso_parser::ast::fmt::{TokenStream, WriteTokenStream};

/// What one token adds, and the crate's bit after it.
#[derive(Clone, Debug, PartialEq)]
pub struct Step {
    pub added: Vec<u8>,
    pub spaced: bool,
}

/// What the crate writes for these tokens from a fresh stream.
pub fn text_of<'a>(tokens: impl IntoIterator<Item = &'a Token>) -> String {
    let mut text = String::new();
    let mut stream = WriteTokenStream::new(&mut text);
    for token in tokens {
        let written = stream.append(token.kind(), token.value.as_deref());
        written.expect("a String takes everything");
    }
    text
}

/// The crate's bit after these tokens. It is private, so one more token shows it.
pub fn spaced_after<'a>(tokens: impl IntoIterator<Item = &'a Token> + Clone) -> bool {
    let probe = Token::id("a");
    let text = text_of(tokens.clone());
    let mut longer: Vec<&Token> = tokens.into_iter().collect();
    longer.push(&probe);
    let probed = text_of(longer);
    match probed.strip_prefix(text.as_str()) {
        Some("a") => true,
        Some(" a") => false,
        _ => panic!("the probe wrote {probed:?} after {text:?}"),
    }
}

/// What one token does to a stream whose bit is `spaced`.
pub fn step(spaced: bool, token: &Token) -> Step {
    let word = Token::id("x");
    let start: &[&Token] = if spaced { &[] } else { &[&word] };
    let tokens = start.iter().copied().chain([token]);
    let text = text_of(tokens.clone());
    Step {
        added: text.as_bytes()[start.len()..].to_vec(),
        spaced: spaced_after(tokens),
    }
}

/// The steps of a whole stream, which must agree with the crate's one stream over all tokens.
pub fn steps_of(tokens: &[Token]) -> Vec<Step> {
    let mut spaced = true;
    let mut steps = Vec::with_capacity(tokens.len());
    for token in tokens {
        let step = step(spaced, token);
        spaced = step.spaced;
        steps.push(step);
    }
    let pieces: Vec<u8> = steps
        .iter()
        .flat_map(|step| step.added.iter().copied())
        .collect();
    assert_eq!(
        pieces,
        text_of(tokens).into_bytes(),
        "steps against the whole: {tokens:?}"
    );
    assert_eq!(spaced, spaced_after(tokens), "the bit after {tokens:?}");
    steps
}
