//! Stream records: good ones, and what may be wrong with one.

use super::{check, plain, Checked, FILL, ID};
use crate::call::Call;
use crate::report::Counts;
use calls::{Stream, COLUMN, COUNT, LINE};
use std::ops::Range;
use tokens::random::Random;
use tokens::token::VALUE_PRESENT;

const COMMA: u16 = 25;
const SELECT: u16 = 139;
const BLOB: u16 = 154;
const NO_TOKEN: u16 = 169;
/// Most bytes of a record that is tried.
pub const LONGEST: usize = 40;
/// Most bytes that a random record says were written.
const MOST_WRITTEN: usize = 23;

/// Records of every length by first byte, and of numbers at every limit.
pub fn sweep(counts: &mut Counts) -> Checked {
    every_start(counts)?;
    every_number(counts)
}

/// Records of 0 to 40 bytes with each first byte.
fn every_start(counts: &mut Counts) -> Checked {
    for length in 0..=LONGEST {
        for first in 0..=u8::MAX {
            let mut call = plain(true, ID | VALUE_PRESENT, b"a", 8);
            call.record.resize(length, 0);
            if let Some(byte) = call.record.first_mut() {
                *byte = first;
            }
            check("records", &call, counts)?;
        }
    }
    Ok(())
}

/// Counts, lines and columns at zero, at a limit, beside it and far beyond, in every combination, and a count in the
/// middle. The count's limit is the output's length, that of line and column the count.
fn every_number(counts: &mut Counts) -> Checked {
    const LENGTHS: [u64; 4] = [0, 1, 12, 300];
    for length in LENGTHS {
        for count in around(length).into_iter().chain([length / 2]) {
            for line in around(count) {
                for column in around(count) {
                    numbers(length as usize, [count, line, column], counts)?;
                }
            }
        }
    }
    Ok(())
}

/// The limit, its neighbours, zero and one, and numbers that are right in their low bytes only or near 2^64.
fn around(limit: u64) -> Vec<u64> {
    let near = [limit.wrapping_sub(1), limit, limit.wrapping_add(1)];
    let low_bytes = [8, 16, 32, 63].map(|bit| limit | 1 << bit);
    let mut around = [&near[..], &low_bytes, &[0, 1, u64::MAX - 1, u64::MAX]].concat();
    around.sort();
    around.dedup();
    around
}

/// What is appended to such a record: words and values, short and long, plain and not, each of which may be laid in a way
/// of its own; a token that is refused; and more than there is room for.
const TRIED: [(u16, &[u8]); 12] = [
    (ID | VALUE_PRESENT, b"a"),
    (ID | VALUE_PRESENT, b""),
    (ID | VALUE_PRESENT, b"b\n\nc"),
    (ID | VALUE_PRESENT, "\u{E9}\u{20AC}".as_bytes()),
    (ID | VALUE_PRESENT, &[b'm'; 17]),
    (ID | VALUE_PRESENT, &[b'm'; 100]),
    (SELECT, b""),
    (SELECT | VALUE_PRESENT, &[b's'; 20]),
    (COMMA, b""),
    (BLOB, b""),
    (NO_TOKEN, b""),
    (ID | VALUE_PRESENT, &[b'z'; 400]),
];

/// Each of these, behind either bit.
fn numbers(length: usize, [count, line, column]: [u64; 3], counts: &mut Counts) -> Checked {
    for (token, value) in TRIED {
        for spaced in [false, true] {
            let stream = Stream {
                spaced,
                count,
                line,
                column,
            };
            let call = Call {
                record: stream.record().to_vec(),
                output: vec![FILL; length],
                token,
                value: value.to_vec(),
            };
            check("numbers of records", &call, counts)?;
        }
    }
    Ok(())
}

/// Some bytes are written, and line and column are within them, at the limit more often.
pub fn random_stream(random: &mut Random) -> Stream {
    let count = random.between(0, MOST_WRITTEN) as u64;
    let within = |random: &mut Random| match random.below(4) {
        0 => count,
        _ => random.word() % (count + 1),
    };
    Stream {
        spaced: random.one_in(2),
        count,
        line: within(random),
        column: within(random),
    }
}

/// Another length, first byte, count, line or column, or two of these.
pub fn damage(call: &mut Call, random: &mut Random) {
    for _ in 0..random.between(1, 2) {
        let whole = call.record.len() >= COLUMN.end;
        match random.below(6) {
            0 => strange_length(&mut call.record, random),
            1 if whole => call.record[0] = random.byte(),
            2 | 3 if whole => strange_count(call, random),
            4 if whole => strange_position(call, LINE, random),
            5 if whole => strange_position(call, COLUMN, random),
            _ => {}
        }
    }
}

/// Any length, that of a record without line and column among them.
fn strange_length(record: &mut Vec<u8>, random: &mut Random) {
    let length = match random.one_in(4) {
        true => COUNT.end,
        false => random.between(0, LONGEST),
    };
    record.resize(length, random.byte());
}

/// A count at the output's end or beyond.
fn strange_count(call: &mut Call, random: &mut Random) {
    let count = strange(random, call.output.len() as u64);
    call.record[COUNT].copy_from_slice(&count.to_le_bytes());
}

/// A line or a column at the count or beyond.
fn strange_position(call: &mut Call, place: Range<usize>, random: &mut Random) {
    let number = strange(random, call.count());
    call.record[place].copy_from_slice(&number.to_le_bytes());
}

/// At a limit, past it, or so large that sums and shorter numbers overflow.
fn strange(random: &mut Random, limit: u64) -> u64 {
    match random.below(7) {
        0 => limit,
        1 => limit.wrapping_add(1),
        2 => limit.wrapping_add(random.below(300) as u64),
        3 => limit | 1 << random.between(8, 63),
        4 => u64::MAX - random.below(40) as u64,
        5 => (1 << 63) + random.below(3) as u64 - 1,
        _ => random.word(),
    }
}
