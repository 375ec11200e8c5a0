//! The text part of a TEXT or of a TOKEN's value.

use super::Case;
use crate::record::Record;
use tokens::random::Random;

/// Gives one part a start and an end.
fn put(random: &mut Random, case: &mut Case, start: usize, end: usize) {
    if let Some(index) = case.one(random, Record::names_part) {
        case.edit(index, |record| {
            record.start = start as u32;
            record.length = end.wrapping_sub(start) as u32;
        });
    }
}

pub fn by_a_little(random: &mut Random, case: &mut Case) {
    let by = random.between(1, 3) as u32;
    let by = random.pick(&[by, by.wrapping_neg()]);
    let which = random.below(3);
    if let Some(index) = case.one(random, Record::names_part) {
        case.edit(index, |record| {
            if which != 0 {
                record.start = record.start.wrapping_add(by);
            }
            if which != 1 {
                record.length = record.length.wrapping_add(by);
            }
        });
    }
}

/// The places where a character begins, and the end.
fn edges(text: &[u8]) -> Vec<usize> {
    let begins = |&at: &usize| at == text.len() || text[at] & 0xC0 != 0x80;
    (0..=text.len()).filter(begins).collect()
}

fn inner_places(text: &[u8]) -> Vec<usize> {
    let inner = |&at: &usize| text[at] & 0xC0 == 0x80;
    (0..text.len()).filter(inner).collect()
}

pub fn between_edges(random: &mut Random, case: &mut Case) {
    let edges = edges(&case.text);
    let (one, other) = (random.pick(&edges), random.pick(&edges));
    put(random, case, one.min(other), one.max(other));
}

/// A place inside a character. One is added to a text that has none.
fn inner(random: &mut Random, case: &mut Case) -> usize {
    if inner_places(&case.text).is_empty() {
        let wide = random.pick(&["\u{E9}", "\u{20AC}", "\u{1F600}"]);
        case.text.extend(wide.as_bytes());
    }
    random.pick(&inner_places(&case.text))
}

pub fn inside_a_character(random: &mut Random, case: &mut Case) {
    let inner = inner(random, case);
    let edges = edges(&case.text);
    let edge = random.pick(&edges);
    put(random, case, edge.min(inner), edge.max(inner));
}

pub fn empty_inside(random: &mut Random, case: &mut Case) {
    let inner = inner(random, case);
    put(random, case, inner, inner);
}

pub fn past_the_end(random: &mut Random, case: &mut Case) {
    let end = case.text.len();
    let over = end + random.pick(&[1, 2, 256, 65_536]);
    let edges = edges(&case.text);
    let start = match random.below(4) {
        0 => end,
        1 => over,
        _ => random.pick(&edges),
    };
    put(random, case, start, over);
}

/// Start and length whose sum passes 32 bits, or whose top bits are set.
pub fn wraps(random: &mut Random, case: &mut Case) {
    let (start, length) = random.pick(&[
        (u32::MAX, 1),
        (1, u32::MAX),
        (u32::MAX, 0),
        (0, u32::MAX),
        (u32::MAX, u32::MAX),
        (1 << 31, 1 << 31),
        (u32::MAX - 1, 3),
        (1 << 16, 0),
        (0, 1 << 16),
        (1 << 24, 0),
    ]);
    if let Some(index) = case.one(random, Record::names_part) {
        case.edit(index, |record| {
            record.start = start;
            record.length = length;
        });
    }
}

pub fn empty_at_the_end(random: &mut Random, case: &mut Case) {
    let end = case.text.len();
    put(random, case, end, end);
}
