//! Marks, tokens, numbers, text parts, UTF-8, depth, lengths.

use super::{drop_type, edited, of};
use crate::damage::sizes::{fault_at_65, of_records};
use crate::damage::text::{filled_to, BAD};
use crate::damage::Case;
use crate::grammar::{NUMBER, RUN, TEXT, TOKEN};
use crate::grow;
use crate::record::{Record, MOST_BYTES, MOST_RECORDS, SIZE, VALUE_PRESENT};
use tokens::cases::broken_values;
use tokens::random::Random;

pub fn cases(random: &mut Random) -> Vec<Case> {
    let mut cases = Vec::new();
    cases.extend(lengths());
    cases.extend(marks());
    cases.extend(unused_fields());
    cases.extend(tokens());
    cases.extend(numbers());
    cases.extend(parts());
    cases.extend(utf8());
    cases.extend(broken_texts());
    cases.extend(depths(random));
    cases.extend(cut_and_left_over());
    cases.extend(limits(random));
    cases
}

/// Around 16 and 48 bytes.
fn lengths() -> Vec<Case> {
    let whole = drop_type(b"geo");
    let cut = |length: usize| {
        let mut case = whole.clone();
        case.tree.resize(length, 0);
        case
    };
    [1, 15, 16, 17, 47, 49].map(cut).to_vec()
}

fn marks() -> Vec<Case> {
    let whole = drop_type(b"geo");
    let marks = [
        [0, 0x4E],
        [0x53, 0],
        [0x4E, 0x53],
        [0x52, 0x4E],
        [0x53, 0xCE],
    ];
    let at = |(index, mark)| edited(&whole, index, |record| record.mark = mark);
    let roots = marks.map(|mark| at((0, mark)));
    let later = [1, 2].map(|index| at((index, [0, 0])));
    roots.into_iter().chain(later).collect()
}

/// Each field that a kind does not use.
fn unused_fields() -> Vec<Case> {
    let leaf = |record: Record| of(&[Record::new(35, 2), Record::new(RUN, 0), record], b"x");
    let listed = of(&[Record::new(1, 1), Record::new(RUN, 0)], b"x");
    let run = of(&[Record::new(RUN, 1), Record::new(TOKEN, 0)], b"x");
    let named = drop_type(b"x");
    let number = of_type(0);
    let mut cases = Vec::new();
    for change in [
        (|record| record.start = 1) as fn(&mut Record),
        |record| record.length = 1,
        |record| record.start = 1 << 31,
        |record| record.length = 1 << 31,
        |record| record.flags = 1 << 8,
        |record| record.children = 1,
    ] {
        let mut none = Record::new(0, 0);
        change(&mut none);
        cases.push(leaf(none));
        cases.push(edited(&number, 3, change));
        cases.extend([edited(&listed, 0, change), edited(&listed, 1, change)]);
        cases.push(edited(&run, 1, change));
        cases.extend([0, 1, 2].map(|at| edited(&named, at, change)));
    }
    cases
}

/// Numbers at the edges of what is known, with a value and without.
fn tokens() -> Vec<Case> {
    let numbers = [0, 168, 169, 184, 185, 193, 194, 254, 255, 256, 32767];
    let one = |flags| Record::flagged(TOKEN, flags, 0);
    let mut cases = Vec::new();
    for number in numbers {
        for flags in [number, number | VALUE_PRESENT] {
            cases.push(of(&[Record::new(RUN, 1), one(flags)], &[]));
        }
    }
    cases
}

/// A Type with this many dimensions.
fn of_type(number: i64) -> Case {
    let records = [
        Record::new(107, 3),
        Record::new(TEXT, 0),
        Record::new(0, 0),
        Record::number(NUMBER, number),
    ];
    of(&records, &[])
}

fn numbers() -> Vec<Case> {
    let dimensions = [
        -1,
        0,
        1,
        255,
        256,
        1 << 32,
        (1 << 32) + 255,
        i64::MIN,
        i64::MAX,
    ];
    let of_sequence = |number| {
        let mut records = vec![Record::new(62, 5), Record::new(RUN, 0)];
        records.extend([Record::number(NUMBER, number); 4]);
        of(&records, &[])
    };
    let mut cases = dimensions.map(of_type).to_vec();
    cases.extend([i64::MIN, -1, 256, i64::MAX].map(of_sequence));
    cases
}

/// Characters of one to four bytes: every start, every end, and sums past 32 bits.
fn parts() -> Vec<Case> {
    let text = "a\u{E9}\u{20AC}\u{1F600}".as_bytes();
    let past = text.len() as u32 + 1;
    let whole = drop_type(text);
    let part = |(start, length): (u32, u32)| {
        edited(&whole, 2, |record| {
            record.start = start;
            record.length = length;
        })
    };
    let mut parts: Vec<(u32, u32)> = (0..=past).map(|start| (start, 0)).collect();
    parts.extend((1..=past).map(|end| (0, end)));
    parts.extend((1..past).map(|start| (start, past - 1 - start)));
    parts.extend([
        (u32::MAX, 1),
        (1, u32::MAX),
        (u32::MAX, 0),
        (0, u32::MAX),
        (1 << 31, 1 << 31),
        (1 << 16, 0),
        (0, 1 << 16),
    ]);
    parts.into_iter().map(part).collect()
}

/// Bad sequences after a good start, and the good ones beside them.
fn utf8() -> Vec<Case> {
    let start = "a\u{E9}".as_bytes();
    let bad = BAD.map(|sequence| drop_type(&[start, sequence].concat()));
    let good = [
        "\0",
        "\u{7F}",
        "\u{80}",
        "\u{7FF}",
        "\u{800}",
        "\u{D7FF}",
        "\u{E000}",
        "\u{FFFF}",
        "\u{10000}",
        "\u{10FFFF}",
    ];
    let good = good.map(|text| drop_type(text.as_bytes()));
    bad.into_iter().chain(good).collect()
}

/// How a text is broken: cut off or never UTF-8, at its end or before it, and which refusal of two comes first.
fn broken_texts() -> Vec<Case> {
    let mut cases: Vec<Case> = broken_values().iter().map(|text| drop_type(text)).collect();
    let cut_off = drop_type(b"ge\xC3");
    let mut ragged = cut_off.clone();
    ragged.tree.push(0);
    cases.push(ragged);
    cases.push(edited(&cut_off, 0, |record| record.mark = [0, 0]));
    cases
}

fn depths(random: &mut Random) -> Vec<Case> {
    let mut cases = Vec::new();
    for depth in [63, 64, 65, 66, 63, 64, 65, 64, 65, 64, 65] {
        cases.push(grow::chain(random, depth).into());
    }
    for _ in 0..8 {
        let mut case = of(&[], &[]);
        fault_at_65(random, &mut case);
        cases.push(case);
    }
    cases
}

fn cut_and_left_over() -> Vec<Case> {
    let whole = drop_type(b"geo");
    let mut cases = Vec::new();
    for records in [1, 2] {
        let mut case = whole.clone();
        case.tree.truncate(records * SIZE);
        cases.push(case);
    }
    for more in [
        vec![0; SIZE],
        Record::new(0, 0).bytes().to_vec(),
        vec![0xFF; 3 * SIZE],
    ] {
        let mut case = whole.clone();
        case.tree.extend(more);
        cases.push(case);
    }
    cases
}

/// Trees and texts of about 65,536 bytes.
fn limits(random: &mut Random) -> Vec<Case> {
    let tree = of_records(random, MOST_RECORDS);
    let mut over_by_one = tree.clone();
    over_by_one.push(0x53);
    let trees = [tree, of_records(random, MOST_RECORDS + 1), over_by_one];
    let mut cases = trees.map(|tree| Case::from((tree, vec![]))).to_vec();
    for length in [MOST_BYTES - 1, MOST_BYTES, MOST_BYTES + 1] {
        let mut text = Vec::new();
        filled_to(random, &mut text, length);
        // The part is empty and stands at the text's end.
        let last = |record: &mut Record| (record.start, record.length) = (length as u32, 0);
        cases.push(edited(&drop_type(&text), 2, last));
    }
    let mut bad_end = vec![b'x'; MOST_BYTES];
    bad_end[MOST_BYTES - 1] = 0xC3;
    cases.push(drop_type(&bad_end));
    let mut bad_and_over = vec![b'x'; MOST_BYTES + 1];
    bad_and_over[0] = 0xFF;
    cases.push(drop_type(&bad_and_over));
    cases
}
