//! One field of one record.

use super::Case;
use crate::grammar::{known_token, row, KINDS, LIST, NONE, NUMBER, RUN, TEXT, TOKEN};
use crate::record::{Record, MARK, VALUE_PRESENT};
use tokens::random::Random;

const UNKNOWN: [u16; 12] = [
    169, 170, 184, 194, 195, 254, 256, 257, 511, 512, 16384, 32767,
];

const NUMBERS: [i64; 16] = [
    -1,
    0,
    1,
    254,
    255,
    256,
    257,
    -256,
    65535,
    65536,
    1 << 31,
    1 << 32,
    (1 << 32) + 255,
    i64::MIN,
    i64::MIN + 255,
    i64::MAX,
];

/// Changes any one record.
fn any(random: &mut Random, case: &mut Case, change: impl FnOnce(&mut Random, &mut Record)) {
    if case.records() > 0 {
        let index = random.below(case.records());
        case.edit(index, |record| change(random, record));
    }
}

/// Changes one of the records that are so.
fn such(
    random: &mut Random,
    case: &mut Case,
    so: impl Fn(&Record) -> bool,
    change: impl FnOnce(&mut Random, &mut Record),
) {
    if let Some(index) = case.one(random, so) {
        case.edit(index, |record| change(random, record));
    }
}

pub fn mark(random: &mut Random, case: &mut Case) {
    let [first, second] = MARK;
    let bit = 1 << random.below(8);
    let marks = [
        [second, first],
        [0, second],
        [first, 0],
        [first ^ bit, second],
        [first, second ^ bit],
        [0, 0],
    ];
    any(random, case, |random, record| {
        record.mark = random.pick(&marks);
    });
}

pub fn kind_near(random: &mut Random, case: &mut Case) {
    let by = random.pick(&[1, 1, 2, u16::MAX, u16::MAX, u16::MAX - 1]);
    any(random, case, |_, record| {
        record.kind = record.kind.wrapping_add(by);
    });
}

/// With the count that the kind has, or with the count that was there.
pub fn kind_of_the_table(random: &mut Random, case: &mut Case) {
    let small = [NONE, LIST, TOKEN, RUN, TEXT, NUMBER];
    let kind = match random.one_in(3) {
        true => random.pick(&small),
        false => KINDS[random.below(KINDS.len())].number,
    };
    any(random, case, |random, record| {
        record.kind = kind;
        if random.one_in(2) {
            record.children = row(kind).map_or(0, |kind| kind.slots.len() as u16);
        }
    });
}

pub fn kind_any(random: &mut Random, case: &mut Case) {
    any(random, case, |random, record| {
        record.kind = match random.below(3) {
            0 => random.word() as u16,
            1 => random.below(130) as u16,
            _ => record.kind | 0x100 << random.below(8),
        };
    });
}

pub fn count_by_one(random: &mut Random, case: &mut Case) {
    let by = random.pick(&[1, u16::MAX]);
    any(random, case, |_, record| {
        record.children = record.children.wrapping_add(by);
    });
}

pub fn count_any(random: &mut Random, case: &mut Case) {
    any(random, case, |random, record| {
        record.children = match random.below(3) {
            0 => random.below(9) as u16,
            1 => random.pick(&[255, 256, 4095, 4096, 65535]),
            _ => record.children | 0x100 << random.below(8),
        };
    });
}

pub fn flag_bit(random: &mut Random, case: &mut Case) {
    any(random, case, |random, record| {
        record.flags ^= 1 << random.below(16);
    });
}

pub fn flags_any(random: &mut Random, case: &mut Case) {
    any(random, case, |random, record| {
        record.flags = random.word() as u16 >> random.below(16);
    });
}

/// The first value that is not defined, or a defined one.
pub fn flags_past(random: &mut Random, case: &mut Case) {
    let has_row = |record: &Record| row(record.kind).is_some();
    such(random, case, has_row, |random, record| {
        let last = row(record.kind).map_or(0, |kind| kind.flags.last());
        record.flags = match random.one_in(4) {
            true => random.between(0, usize::from(last)) as u16,
            false => last + 1,
        };
    });
}

pub fn unused_field(random: &mut Random, case: &mut Case) {
    let unused = |record: &Record| match record.kind {
        TEXT | NUMBER => false,
        TOKEN => record.flags & VALUE_PRESENT == 0,
        _ => true,
    };
    such(random, case, unused, |random, record| {
        let bit = 1 << random.below(32);
        match random.one_in(2) {
            true => record.start |= bit,
            false => record.length |= bit,
        }
    });
}

fn is_token(record: &Record) -> bool {
    record.kind == TOKEN
}

pub fn token_unknown(random: &mut Random, case: &mut Case) {
    such(random, case, is_token, |random, record| {
        let number = match random.one_in(4) {
            true => loop {
                let number = random.below(32768) as u16;
                if !known_token(number) {
                    break number;
                }
            },
            false => random.pick(&UNKNOWN),
        };
        record.flags = record.flags & VALUE_PRESENT | number;
    });
}

pub fn token_any(random: &mut Random, case: &mut Case) {
    let number = random.below(260) as u16;
    such(random, case, is_token, |_, record| {
        record.flags = record.flags & VALUE_PRESENT | number;
    });
}

pub fn value_bit(random: &mut Random, case: &mut Case) {
    such(random, case, is_token, |_, record| {
        record.flags ^= VALUE_PRESENT;
    });
}

pub fn number_edges(random: &mut Random, case: &mut Case) {
    let is_number = |record: &Record| record.kind == NUMBER;
    such(random, case, is_number, |random, record| {
        record.set_as_number(random.pick(&NUMBERS));
    });
}
