//! Readable streams, written by kinyandoma_append token by token and cut back by the reading rule.

use crate::call::Call;
use calls::Stream;
use reading::streams::{self, Counts};
use tokens::judge::text_of;
use tokens::position::Position;
use tokens::token::Token;

/// So many random streams; the first that is not cut back is told.
pub fn compare(count: u64, seed: u64) -> Result<Counts, String> {
    streams::compare(count, seed, &written)
}

/// What the library writes in just the room that the crate's text has, which it must equal; its record must say where
/// the text ends.
fn written(tokens: &[Token]) -> Result<Vec<u8>, String> {
    let text = text_of(tokens).into_bytes();
    let mut call = Call {
        record: Stream::FRESH.record().to_vec(),
        output: vec![0; text.len()],
        token: 0,
        value: Vec::new(),
    };
    for token in tokens {
        call.token = token.flags();
        call.value = token.value_bytes().to_vec();
        let outcome = call.observed();
        if outcome.answer.number != 0 || !outcome.rest_untouched {
            return Err(format!("{call}\n{}", outcome.told_after(&call)));
        }
        call.record = outcome.record;
        call.output = outcome.output;
    }
    let told = call.count() == text.len() as u64 && call.position() == Position::behind(&text);
    match call.output == text && told {
        true => Ok(text),
        false => Err(format!(
            "another text than the crate's, or another end: {tokens:?}\n{call}"
        )),
    }
}
