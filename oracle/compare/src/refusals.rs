//! Refused and damaged calls, against the rules: sweeps over small sets, then random ones.

mod newlines;
pub mod records;

use crate::call::Call;
use crate::report::{Counts, Difference};
use crate::rules::expected;
use calls::Stream;
use tokens::encoding::LONGEST;
use tokens::judge::step;
use tokens::random::Random;
use tokens::token::{known_numbers, Token, VALUE_PRESENT};
use tokens::values::{any_kind, blank, letter, lines, of_length, random_value, wide};

type Checked = Result<(), Box<Difference>>;

const ID: u16 = 60;
/// What stands in an output.
const FILL: u8 = 0xEE;
/// Bytes that stand before a plain call.
const WRITTEN: usize = 3;

/// The sweeps, then at least `least` random calls.
pub fn compare(least: u64, random: &mut Random, counts: &mut Counts) -> Checked {
    every_token(counts)?;
    every_short_value(counts)?;
    edges_of_utf8(counts)?;
    records::sweep(counts)?;
    every_room(counts)?;
    newlines::sweep(counts)?;
    let end = counts.total() + least;
    while counts.total() < end {
        check("a random call", &random_call(random), counts)?;
    }
    Ok(())
}

fn check(part: &'static str, call: &Call, counts: &mut Counts) -> Checked {
    counts.check(part, call, expected(call)).map(|_| ())
}

/// A call with `room` bytes left after three, the second of which was a newline by the record.
fn plain(spaced: bool, token: u16, value: &[u8], room: usize) -> Call {
    let stream = Stream {
        spaced,
        count: WRITTEN as u64,
        line: 1,
        column: 1,
    };
    Call {
        record: stream.record().to_vec(),
        output: vec![FILL; WRITTEN + room],
        token,
        value: value.to_vec(),
    }
}

/// All 65,536 values of the token word.
fn every_token(counts: &mut Counts) -> Checked {
    for token in 0..=u16::MAX {
        for (spaced, value) in [(true, ""), (false, ""), (true, "a"), (false, "a")] {
            check(
                "every token",
                &plain(spaced, token, value.as_bytes(), 40),
                counts,
            )?;
        }
    }
    Ok(())
}

/// All values of one byte and of two.
fn every_short_value(counts: &mut Counts) -> Checked {
    for first in 0..=u8::MAX {
        check(
            "values of one byte",
            &plain(true, ID | VALUE_PRESENT, &[first], 8),
            counts,
        )?;
        for second in 0..=u8::MAX {
            let value = [first, second];
            check(
                "values of two bytes",
                &plain(false, ID | VALUE_PRESENT, &value, 8),
                counts,
            )?;
        }
    }
    Ok(())
}

/// All values of three and of four bytes that stand at the edge of some range of UTF-8.
fn edges_of_utf8(counts: &mut Counts) -> Checked {
    const EDGES: [u8; 25] = [
        0x00, 0x7F, 0x80, 0x81, 0x8F, 0x90, 0x9F, 0xA0, 0xBF, 0xC0, 0xC1, 0xC2, 0xDF, 0xE0, 0xE1,
        0xEC, 0xED, 0xEE, 0xEF, 0xF0, 0xF1, 0xF3, 0xF4, 0xF5, 0xFF,
    ];
    let base = EDGES.len();
    for index in 0..base.pow(4) {
        let digit = |power: u32| EDGES[index / base.pow(power) % base];
        let value = [digit(3), digit(2), digit(1), digit(0)];
        check(
            "four bytes",
            &plain(true, ID | VALUE_PRESENT, &value, 8),
            counts,
        )?;
        if index < base.pow(3) {
            check(
                "three bytes",
                &plain(true, ID | VALUE_PRESENT, &value[1..], 8),
                counts,
            )?;
        }
    }
    Ok(())
}

/// Each known token in rooms from none to one more than it needs.
fn every_room(counts: &mut Counts) -> Checked {
    const VALUES: [Option<&str>; 6] = [
        None,
        Some(""),
        Some(" "),
        Some("k"),
        Some("\u{20AC}"),
        Some("k\nk"),
    ];
    for &number in known_numbers() {
        for value in VALUES {
            let token = Token {
                number,
                value: value.map(str::to_string),
            };
            for spaced in [false, true] {
                rooms_of(&token, spaced, counts)?;
            }
        }
    }
    Ok(())
}

fn rooms_of(token: &Token, spaced: bool, counts: &mut Counts) -> Checked {
    let needed = step(spaced, token).added.len();
    for room in 0..=needed + 1 {
        check(
            "rooms",
            &plain(spaced, token.flags(), token.value_bytes(), room),
            counts,
        )?;
    }
    Ok(())
}

/// Any mixture of faults, or none.
pub fn random_call(random: &mut Random) -> Call {
    let token = random_flags(random);
    let value = random_bytes(random);
    let stream = records::random_stream(random);
    let room = random_room(random, value.len() + 20);
    let mut call = Call {
        record: stream.record().to_vec(),
        output: random.bytes(stream.count as usize + room),
        token,
        value,
    };
    if random.one_in(2) {
        fit_room(&mut call, random);
    }
    if random.one_in(5) {
        records::damage(&mut call, random);
    }
    call
}

/// Known and unknown numbers, with and without the value bit.
fn random_flags(random: &mut Random) -> u16 {
    let number = match random.below(12) {
        0 => random.between(169, 184) as u16,
        1 => random.between(194, 254) as u16,
        2 => random.between(256, 32_767) as u16,
        _ => random.pick(known_numbers()),
    };
    match random.below(5) {
        0 => number,
        _ => number | VALUE_PRESENT,
    }
}

fn random_room(random: &mut Random, most: usize) -> usize {
    match random.below(3) {
        0 => random.below(most + 1),
        1 => random.below(4),
        _ => most,
    }
}

/// Makes the room exactly what the token adds, or one byte less or more.
fn fit_room(call: &mut Call, random: &mut Random) {
    let mut wide_call = call.clone();
    wide_call
        .output
        .resize(call.output.len() + call.value.len() + 40, 0);
    let answer = expected(&wide_call).answer;
    if answer.number == 0 {
        let end = call.count() as usize + answer.place as usize;
        let length = (end + random.below(3)).saturating_sub(1);
        call.output.resize(length, random.byte());
    }
}

/// A value's bytes: none, good, broken, or of the greatest lengths.
fn random_bytes(random: &mut Random) -> Vec<u8> {
    match random.below(400) {
        0 => longest(random),
        1..=60 => Vec::new(),
        61..=180 => random_value(random, 300).unwrap_or_default().into_bytes(),
        181..=260 => with_bad_part(random),
        261..=340 => broken(random),
        341..=380 => lines(random, 300).into_bytes(),
        _ => {
            let length = random.between(1, 12);
            random.bytes(length)
        }
    }
}

/// About 65,536 bytes, good or broken near one end.
fn longest(random: &mut Random) -> Vec<u8> {
    let draw = random.pick(&[letter, blank, wide, any_kind]);
    let mut value = of_length(random, LONGEST - 8, draw).into_bytes();
    let length = random.pick(&[65_535, 65_536, 65_536, 65_537, 65_540, 131_072]);
    value.resize(length, b'q');
    match random.below(4) {
        0 => value[length - 1 - random.below(6)] = random.byte() | 0x80,
        1 => value[random.below(6)] = random.byte() | 0x80,
        _ => {}
    }
    value
}

/// A text with one byte changed, taken out or put in, or cut off.
fn broken(random: &mut Random) -> Vec<u8> {
    let length = random.between(1, 90);
    let draw = random.pick(&[wide, wide, any_kind, letter]);
    let mut value = of_length(random, length, draw).into_bytes();
    if value.is_empty() {
        return vec![random.byte()];
    }
    let place = random.below(value.len());
    match random.below(4) {
        0 => value[place] = random.byte(),
        1 => drop(value.remove(place)),
        2 => value.insert(place, random.byte()),
        _ => value.truncate(place),
    }
    value
}

/// A good beginning, a part that is no character, and any end.
fn with_bad_part(random: &mut Random) -> Vec<u8> {
    const BAD: [&[u8]; 22] = [
        b"\x80",
        b"\xBF",
        b"\xC0\x80",
        b"\xC1\xBF",
        b"\xC3",
        b"\xC3A",
        b"\xE0\x80\x80",
        b"\xE0\x9F\xBF",
        b"\xE2\x82",
        b"\xE2\x82A",
        b"\xED\xA0\x80",
        b"\xED\xBF\xBF",
        b"\xF0\x80\x80\x80",
        b"\xF0\x8F\xBF\xBF",
        b"\xF0\x9F\x98",
        b"\xF0\x9F\x98A",
        b"\xF4\x90\x80\x80",
        b"\xF5\x80\x80\x80",
        b"\xF7\xBF\xBF\xBF",
        b"\xF8\x88\x80\x80\x80",
        b"\xFE",
        b"\xFF",
    ];
    let length = random.pick(&[0, 1, 3, 7, 14, 15, 16, 30, 31, 32, 60, 63, 64, 65]);
    let draw = random.pick(&[wide, letter, any_kind]);
    let mut value = of_length(random, length, draw).into_bytes();
    value.extend(random.pick(&BAD));
    value.extend(random_value(random, 40).unwrap_or_default().into_bytes());
    value
}
