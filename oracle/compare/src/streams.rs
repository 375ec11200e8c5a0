//! Random streams, token by token, against the crate's own stream.

use crate::call::Call;
use crate::report::{Counts, Difference};
use calls::Stream;
use tokens::encoding::LONGEST;
use tokens::judge::{steps_of, Step};
use tokens::position::Position;
use tokens::random::Random;
use tokens::token::Token;
use tokens::values::{
    any_kind, blank, letter, lines, of_length, random_token, token_with_lines, wide,
};

const USUAL_LONGEST: usize = 300;
/// Most bytes that stand before a stream, and one more than most that are left behind it.
const MOST_BEFORE: usize = 40;
const MOST_LEFT: usize = 40;

/// Streams of at least `least` tokens in all.
pub fn compare(
    least: u64,
    random: &mut Random,
    counts: &mut Counts,
) -> Result<(), Box<Difference>> {
    while counts.total() < least {
        let tokens = stream(random);
        compare_stream(&tokens, random, counts)?;
    }
    Ok(())
}

fn stream(random: &mut Random) -> Vec<Token> {
    if random.one_in(300) {
        return stream_with_long_values(random);
    }
    let count = random.between(1, 200);
    (0..count).map(|_| any_token(random)).collect()
}

/// One token in six has newlines in its value, besides those that others happen to have.
fn any_token(random: &mut Random) -> Token {
    match random.one_in(6) {
        true => token_with_lines(random, USUAL_LONGEST),
        false => random_token(random, USUAL_LONGEST),
    }
}

/// A short stream, one of whose values is as long as a value may be, or almost.
fn stream_with_long_values(random: &mut Random) -> Vec<Token> {
    let count = random.between(1, 12);
    let mut tokens: Vec<Token> = (0..count).map(|_| random_token(random, LONGEST)).collect();
    let length = LONGEST - random.below(3);
    let draw = random.pick(&[letter, blank, wide, any_kind]);
    let place = random.below(count);
    tokens[place].value = Some(of_length(random, length, draw));
    tokens
}

fn compare_stream(
    tokens: &[Token],
    random: &mut Random,
    counts: &mut Counts,
) -> Result<(), Box<Difference>> {
    let steps = steps_of(tokens);
    let mut call = first_call(&steps, random);
    let mut written = call.output[..call.count() as usize].to_vec();
    for (token, step) in tokens.iter().zip(&steps) {
        call.token = token.flags();
        call.value = token.value_bytes().to_vec();
        written.extend(&step.added);
        // By all bytes from the first one on: the record before has no part in it.
        let end = Position::behind(&written);
        let expected = call.done(&step.added, step.spaced, end);
        let outcome = counts.check("a stream", &call, expected)?;
        call.record = outcome.record;
        call.output = outcome.output;
    }
    Ok(())
}

/// A fresh record, or one behind a text that is there already; room may be left.
fn first_call(steps: &[Step], random: &mut Random) -> Call {
    let length: usize = steps.iter().map(|step| step.added.len()).sum();
    let before = before(random);
    let Position { line, column } = Position::behind(&before);
    let stream = Stream {
        count: before.len() as u64,
        line,
        column,
        ..Stream::FRESH
    };
    let left = some_or_none(random);
    Call {
        record: stream.record().to_vec(),
        output: [before, random.bytes(length + left)].concat(),
        token: 0,
        value: Vec::new(),
    }
}

/// What a stream has written before, with newlines or without.
fn before(random: &mut Random) -> Vec<u8> {
    match random.below(4) {
        0 | 1 => Vec::new(),
        2 => lines(random, MOST_BEFORE).into_bytes(),
        _ => of_length(random, MOST_BEFORE, letter).into_bytes(),
    }
}

fn some_or_none(random: &mut Random) -> usize {
    match random.below(3) {
        0 => 0,
        _ => random.below(MOST_LEFT),
    }
}
