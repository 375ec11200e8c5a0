//! What each call has to answer, read from the documents: 1, then 4, then 2 or 12, then 8.

use crate::call::{Call, Outcome};
use calls::RECORD;
use tokens::encoding::{text_in, Refusal};
use tokens::judge::{step, Step};
use tokens::position::Position;
use tokens::token::{kind_of, Token, VALUE_PRESENT};

pub fn expected(call: &Call) -> Outcome {
    if !record_is_well_formed(call) {
        return call.refused(1, 0);
    }
    if !token_is_known(call) {
        return call.refused(4, 0);
    }
    match value_of(call) {
        Err((number, place)) => call.refused(number, place as usize),
        Ok(value) => appended(call, value),
    }
}

fn record_is_well_formed(call: &Call) -> bool {
    let bytes_are_good = call.record.len() == RECORD && call.record[0] <= 1;
    bytes_are_good && numbers_are_good(call)
}

/// The count ends within the output; line and column, each by itself, are at most the count (request ix).
fn numbers_are_good(call: &Call) -> bool {
    let count = call.count();
    let Position { line, column } = call.position();
    count <= call.output.len() as u64 && line <= count && column <= count
}

fn token_is_known(call: &Call) -> bool {
    kind_of(number(call)).is_some() && (value_is_present(call) || call.value.is_empty())
}

fn number(call: &Call) -> u16 {
    call.token & !VALUE_PRESENT
}

fn value_is_present(call: &Call) -> bool {
    call.token & VALUE_PRESENT != 0
}

/// The value as text, or the refusal of its encoding.
fn value_of(call: &Call) -> Result<Option<String>, Refusal> {
    let text = text_in(&call.value)?;
    Ok(value_is_present(call).then(|| text.to_string()))
}

fn appended(call: &Call, value: Option<String>) -> Outcome {
    let token = Token {
        number: number(call),
        value,
    };
    let Step { added, spaced } = step(call.record[0] == 1, &token);
    let room = call.output.len() - call.count() as usize;
    if added.len() > room {
        return call.refused(8, added.len());
    }
    call.done(&added, spaced, call.position().after(&added))
}
