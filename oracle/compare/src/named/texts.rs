//! Which bytes of a text the records of a tree name, and texts that differ in the others alone.

use model::damage::text::{filled_to, BAD};
use model::damage::Case;
use model::record::{Record, MOST_BYTES};
use std::ops::Range;
use tokens::random::Random;
use tokens::values::any_kind;

/// Most fillers of a text, and most pieces of one.
const FILLERS: usize = 4;
const PIECES: usize = 12;
/// One text in so many is filled up to the greatest length.
const LONG: usize = 2_000;
/// Most parts that are moved to other places of the text.
const MOVED: usize = 3;
/// What a filler has besides any characters: what would be seen if it were written or looked at.
const TELLING: [&str; 16] = [
    "'",
    "\"",
    "`",
    "''",
    "--",
    "/*",
    "*/",
    "\n",
    " ",
    ";",
    "(",
    "WITHOUT",
    "ROWID",
    "é",
    "€",
    "\u{1F600}",
];
/// The end of a text that is cut off.
const CUT: [&[u8]; 6] = [
    &[0xC3],
    &[0xE2],
    &[0xE2, 0x82],
    &[0xF0],
    &[0xF0, 0x9F],
    &[0xF0, 0x9F, 0x98],
];

/// A way to change bytes that stand in gaps between the named ones.
type Change = fn(&mut Random, &mut [u8], &[Range<usize>]);
const CHANGES: [(&str, Change); 6] = [
    ("one ASCII byte", one_byte),
    ("other ASCII bytes", other_bytes),
    ("other characters of the same lengths", other_characters),
    ("any characters", any_characters),
    ("never UTF-8", broken),
    ("cut off at the end", cut_off),
];

/// The part that a record names, if it names one.
fn part(record: &Record) -> Option<Range<usize>> {
    let (start, length) = (record.start as usize, record.length as usize);
    record.names_part().then_some(start..start + length)
}

/// The records that name a part, each with its part.
fn parts(tree: &[u8]) -> Vec<(usize, Range<usize>)> {
    let records = (0..).map_while(|index| Record::read(tree, index));
    let parts = records
        .enumerate()
        .map(|(index, record)| (index, part(&record)));
    parts
        .filter_map(|(index, part)| Some((index, part?)))
        .collect()
}

/// Of each byte of the text, whether a record names it.
pub fn named(tree: &[u8], text: &[u8]) -> Vec<bool> {
    let mut named = vec![false; text.len()];
    for (_, part) in parts(tree) {
        let end = part.end.min(text.len());
        named[part.start.min(end)..end].fill(true);
    }
    named
}

/// The stretches that nobody names.
pub fn gaps(case: &Case) -> Vec<Range<usize>> {
    let named = named(&case.tree, &case.text);
    let mut gaps: Vec<Range<usize>> = vec![];
    for place in (0..named.len()).filter(|&place| !named[place]) {
        match gaps.last_mut() {
            Some(gap) if gap.end == place => gap.end += 1,
            _ => gaps.push(place..place + 1),
        }
    }
    gaps
}

/// Lets some records name any other part of the text, if there are any: parts may overlap then, and leave holes. Whether there
/// are.
pub fn move_parts(random: &mut Random, case: &mut Case) -> bool {
    let records: Vec<usize> = parts(&case.tree).iter().map(|(index, _)| *index).collect();
    let edges = edges(&case.text);
    if records.is_empty() {
        return false;
    }
    for _ in 0..random.between(1, MOVED) {
        let (one, other) = (random.pick(&edges), random.pick(&edges));
        case.edit(random.pick(&records), |record| {
            record.start = one.min(other) as u32;
            record.length = one.abs_diff(other) as u32;
        });
    }
    true
}

/// Puts in bytes that nobody names: before all parts, behind them and between them.
pub fn enlarge(random: &mut Random, case: &mut Case) {
    for _ in 0..random.between(1, FILLERS) {
        let open = open_places(case);
        let any = random.pick(&open);
        let at = random.pick(&[0, any, any, case.text.len()]);
        put_in(random, case, at);
    }
    if random.one_in(LONG) {
        filled_to(random, &mut case.text, MOST_BYTES);
    }
}

/// The places between two characters, and both ends.
fn edges(text: &[u8]) -> Vec<usize> {
    let inside = |place: &usize| text.get(*place).is_some_and(|byte| byte & 0xC0 == 0x80);
    (0..=text.len()).filter(|place| !inside(place)).collect()
}

/// The edges that are inside no part. Both ends are among them.
fn open_places(case: &Case) -> Vec<usize> {
    let mut inside = vec![false; case.text.len() + 1];
    for (_, part) in parts(&case.tree) {
        let end = part.end.min(inside.len());
        let start = part.start + 1;
        inside[start.min(end)..end].fill(true);
    }
    let mut places = edges(&case.text);
    places.retain(|&place| !inside[place]);
    places
}

/// A filler at an open place. What is named behind it moves; an empty part at the place may stay.
fn put_in(random: &mut Random, case: &mut Case, at: usize) {
    let pieces = random.between(1, PIECES);
    let filler: String = (0..pieces).map(|_| piece(random)).collect();
    for (index, part) in parts(&case.tree) {
        let behind = part.start > at || part.start == at && !part.is_empty();
        if behind || part.start == at && random.one_in(2) {
            case.edit(index, |record| record.start += filler.len() as u32);
        }
    }
    case.text.splice(at..at, filler.bytes());
}

fn piece(random: &mut Random) -> String {
    match random.one_in(2) {
        true => any_kind(random).to_string(),
        false => random.pick(&TELLING).to_string(),
    }
}

/// A text of the same length that agrees on every named byte, and in a few words how it was changed.
pub fn changed(random: &mut Random, text: &[u8], gaps: &[Range<usize>]) -> (&'static str, Vec<u8>) {
    let mut other = text.to_vec();
    let (told, change) = random.pick(&CHANGES);
    change(random, &mut other, gaps);
    (told, other)
}

/// The places of ASCII bytes in the gaps.
fn ascii(text: &[u8], gaps: &[Range<usize>]) -> Vec<usize> {
    let places = gaps.iter().cloned().flatten();
    places.filter(|&place| text[place] < 0x80).collect()
}

pub fn other_ascii(random: &mut Random, byte: u8) -> u8 {
    byte ^ random.between(1, 0x7F) as u8
}

fn one_byte(random: &mut Random, text: &mut [u8], gaps: &[Range<usize>]) {
    match ascii(text, gaps) {
        places if places.is_empty() => other_characters(random, text, gaps),
        places => {
            let at = random.pick(&places);
            text[at] = other_ascii(random, text[at]);
        }
    }
}

fn other_bytes(random: &mut Random, text: &mut [u8], gaps: &[Range<usize>]) {
    let rare = random.between(1, 3);
    for place in ascii(text, gaps) {
        if random.one_in(rare) {
            text[place] = other_ascii(random, text[place]);
        }
    }
}

fn other_characters(random: &mut Random, text: &mut [u8], gaps: &[Range<usize>]) {
    for gap in gaps {
        let before = String::from_utf8(text[gap.clone()].to_vec());
        let before = before.expect("parts begin and end between characters");
        let after: String = before
            .chars()
            .map(|c| of_length(random, c.len_utf8()))
            .collect();
        text[gap.clone()].copy_from_slice(after.as_bytes());
    }
}

fn any_characters(random: &mut Random, text: &mut [u8], gaps: &[Range<usize>]) {
    for gap in gaps {
        let mut after = String::new();
        while after.len() < gap.len() {
            let longest = (gap.len() - after.len()).min(4);
            let length = random.between(1, longest);
            after.push(of_length(random, length));
        }
        text[gap.clone()].copy_from_slice(after.as_bytes());
    }
}

/// A character of so many bytes.
fn of_length(random: &mut Random, length: usize) -> char {
    let (first, last) = [
        (0, 0x7F),
        (0x80, 0x7FF),
        (0x800, 0xFFFF),
        (0x10000, 0x10FFFF),
    ][length - 1];
    loop {
        let code = random.between(first, last) as u32;
        if let Some(c) = char::from_u32(code) {
            return c;
        }
    }
}

/// As much as there is room for of what is no character, or any byte.
fn broken(random: &mut Random, text: &mut [u8], gaps: &[Range<usize>]) {
    let gap = gaps[random.below(gaps.len())].clone();
    let bad = match random.one_in(2) {
        true => random.pick(&BAD).to_vec(),
        false => vec![random.byte() | 0x80],
    };
    let length = bad.len().min(gap.len());
    let start = gap.start + random.between(0, gap.len() - length);
    text[start..start + length].copy_from_slice(&bad[..length]);
}

/// The beginning of a character at the end, if nobody names the end.
fn cut_off(random: &mut Random, text: &mut [u8], gaps: &[Range<usize>]) {
    let cut = random.pick(&CUT);
    match gaps.last() {
        Some(gap) if gap.end == text.len() && gap.len() >= cut.len() => {
            let start = text.len() - cut.len();
            text[start..].copy_from_slice(cut);
        }
        _ => broken(random, text, gaps),
    }
}

#[cfg(test)]
mod tests {
    use super::*;
    use model::grammar::{RUN, TEXT, TOKEN};
    use model::record::VALUE_PRESENT;

    /// `abcdefgh`: a TOKEN with a value names `bc`, a TEXT `cd`, an empty TEXT nothing at 6; a TOKEN without one names nothing.
    fn case() -> Case {
        let records = [
            Record::new(RUN, 4),
            Record::part(TOKEN, VALUE_PRESENT, 1, 2),
            Record::part(TOKEN, 1, 0, 0),
            Record::part(TEXT, 0, 2, 2),
            Record::part(TEXT, 0, 6, 0),
        ];
        let tree = records.iter().flat_map(Record::bytes).collect();
        Case::from((tree, b"abcdefgh".to_vec()))
    }

    #[test]
    fn what_is_named_is_told() {
        assert_eq!(gaps(&case()), [0..1, 4..8]);
    }

    #[test]
    fn open_places_are_inside_no_part() {
        assert_eq!(open_places(&case()), [0, 1, 4, 5, 6, 7, 8]);
    }

    #[test]
    fn named_bytes_stay() {
        let said = |case: &Case| -> Vec<Vec<u8>> {
            let parts = parts(&case.tree).into_iter();
            parts.map(|(_, part)| case.text[part].to_vec()).collect()
        };
        let mut random = Random::new(1);
        for _ in 0..10_000 {
            let mut case = case();
            let before = said(&case);
            enlarge(&mut random, &mut case);
            assert_eq!(said(&case), before);
            let gaps = gaps(&case);
            let (_, other) = changed(&mut random, &case.text, &gaps);
            assert_eq!(other.len(), case.text.len());
            case.text = other;
            assert_eq!(said(&case), before);
        }
    }
}
