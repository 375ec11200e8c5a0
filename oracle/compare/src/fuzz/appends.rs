//! kinyandoma_append on whatever comes: one call, or several that go on with the record and the output of the one before.

use super::mutate::mutate;
use super::Counts;
use crate::call::Call;
use crate::refusals::{random_call, records};
use crate::rules::expected;
use calls::Stream;
use tokens::random::Random;
use tokens::token::Token;
use tokens::values::{random_token, token_with_lines};

/// Most calls in a row, and most bytes of a value in one of them.
const ROW: usize = 12;
const LONGEST: usize = 60;
/// Most bytes of an output and of a value that are any bytes.
const OUTPUT: usize = 80;
const VALUE: usize = 24;

/// One call, or a row of them.
pub fn compare(random: &mut Random, counts: &mut Counts) -> Result<(), String> {
    match random.below(4) {
        0 => row(random, counts),
        1 => settle(&noise(random), random, counts).map(drop),
        2 => settle(&changed(random), random, counts).map(drop),
        _ => settle(&random_call(random), random, counts).map(drop),
    }
}

/// Makes the call and holds it to the rules; the call with what it left comes back.
fn settle(call: &Call, random: &mut Random, counts: &mut Counts) -> Result<Call, String> {
    let fences = counts.fences(random);
    let checked = counts
        .appended
        .check_within(fences, "any call", call, expected(call));
    let outcome = checked.map_err(|difference| difference.to_string())?;
    Ok(Call {
        record: outcome.record,
        output: outcome.output,
        ..call.clone()
    })
}

/// Tokens one after the other, until the room is used up and beyond.
fn row(random: &mut Random, counts: &mut Counts) -> Result<(), String> {
    let mut call = random_call(random);
    for _ in 0..random.between(1, ROW) {
        call = settle(&call, random, counts)?;
        let token = any_token(random);
        call.token = token.flags();
        call.value = token.value_bytes().to_vec();
    }
    Ok(())
}

/// One token in three has newlines in its value.
fn any_token(random: &mut Random) -> Token {
    match random.one_in(3) {
        true => token_with_lines(random, LONGEST),
        false => random_token(random, LONGEST),
    }
}

/// Bytes of any sort and any token word; the record is mostly one that can be.
fn noise(random: &mut Random) -> Call {
    let (output, value) = (random.below(OUTPUT), random.below(VALUE));
    let count = random.between(0, output);
    let stream = Stream {
        spaced: random.one_in(2),
        count: count as u64,
        line: random.between(0, count) as u64,
        column: random.between(0, count) as u64,
    };
    let mut call = Call {
        record: stream.record().to_vec(),
        output: random.bytes(output),
        token: random.word() as u16,
        value: random.bytes(value),
    };
    if random.one_in(4) {
        let length = random.between(0, records::LONGEST);
        call.record = random.bytes(length);
    }
    call
}

/// A call with its record, its value or its token changed.
fn changed(random: &mut Random) -> Call {
    let mut call = random_call(random);
    match random.below(4) {
        0 => mutate(random, &mut call.record),
        1 => call.token ^= 1 << random.below(16),
        _ => mutate(random, &mut call.value),
    }
    call
}
