//! Each kind with each value of its flags, each slot, each count.

use super::{edited, of, spliced};
use crate::damage::Case;
use crate::grammar::{
    row, Class, Kind, Slot, KINDS, LIST, NONE, NUMBER, REPLACE, RUN, TEXT, TOKEN,
};
use crate::grow;
use crate::record::Record;
use tokens::random::Random;

pub fn cases(random: &mut Random) -> Vec<Case> {
    let mut cases = Vec::new();
    cases.extend(at_the_root());
    cases.extend(KINDS.iter().flat_map(flag_values));
    cases.extend(KINDS.iter().flat_map(other_slots));
    cases.extend(KINDS.iter().map(other_count));
    cases.extend(other_kinds());
    cases.extend(for_a_list());
    cases.extend(for_replace());
    let full = KINDS.iter().filter(|kind| may_be_root(kind));
    cases.extend(full.map(|kind| grow::fullest(random, kind.number).into()));
    cases
}

fn may_be_root(kind: &Kind) -> bool {
    kind.number != REPLACE
}

/// Kinds at and beside the edges, as root and in a root LIST, with nothing below.
fn at_the_root() -> Vec<Case> {
    let kinds = [
        0, 1, 2, 4, 5, 6, 9, 10, 11, 31, 32, 64, 65, 79, 80, 108, 109, 118, 119, 120, 121, 256,
        259, 266, 65535,
    ];
    let mut cases = Vec::new();
    for kind in kinds {
        let slots = row(kind).map_or(0, |kind| kind.slots.len() as u16);
        let record = Record::new(kind, slots);
        cases.push(of(&[record], &[]));
        cases.push(of(&[Record::new(LIST, 1), record], &[]));
    }
    cases
}

/// All that are defined, and the first that is not.
fn flag_values(kind: &Kind) -> Vec<Case> {
    let values = 0..=kind.flags.last() + 1;
    values
        .map(|flags| grow::smallest(kind.number, flags).into())
        .collect()
}

/// NONE in a slot or list that does not take it, something in a slot that does.
fn other_slots(kind: &'static Kind) -> Vec<Case> {
    let mut cases = Vec::new();
    for (at, slot) in kind.slots.iter().enumerate() {
        let record = match (slot.optional, slot.class) {
            (false, _) => Record::new(NONE, 0),
            (true, Class::Text) => Record::new(TEXT, 0),
            (true, Class::Number(..)) => Record::number(NUMBER, i64::MIN),
            (true, _) => Record::new(RUN, 0),
        };
        cases.push(filled(kind, at, &[record]));
        if let Class::List(element) = slot.class {
            let none = Record::new(NONE, 0);
            let list = Record::new(LIST, 1);
            cases.push(filled(kind, at, &[list, none]));
            if let Class::List(_) = element.class {
                cases.push(filled(kind, at, &[list, list, none]));
            }
        }
    }
    cases
}

/// The smallest tree of a kind, with these records in one slot.
fn filled(kind: &Kind, at: usize, records: &[Record]) -> Case {
    let bytes: Vec<u8> = records.iter().flat_map(|record| record.bytes()).collect();
    let smallest = Case::from(grow::smallest(kind.number, 0));
    spliced(&smallest, at + 1, at + 2, &bytes)
}

/// Everything but a LIST in the place of one.
fn for_a_list() -> Vec<Case> {
    let kind = row(83).expect("a kind of the table");
    let records = [NONE, TOKEN, RUN, TEXT, NUMBER].map(|leaf| Record::new(leaf, 0));
    records.map(|record| filled(kind, 1, &[record])).to_vec()
}

/// REPLACE where it may stand, with a flag, a child, a part.
fn for_replace() -> Vec<Case> {
    let insert = row(49).expect("a kind of the table");
    let with = |record| filled(insert, 1, &[record]);
    vec![
        with(Record::new(REPLACE, 0)),
        with(Record::flagged(REPLACE, 1, 0)),
        with(Record::new(REPLACE, 1)),
        with(Record::part(REPLACE, 0, 0, 1)),
    ]
}

/// One child more or less.
fn other_count(kind: &Kind) -> Case {
    let smallest = Case::from(grow::smallest(kind.number, 0));
    let even = kind.number.is_multiple_of(2);
    let by = if even { 1 } else { u16::MAX };
    edited(&smallest, 0, |record| {
        record.children = record.children.wrapping_add(by);
    })
}

/// In each slot the kinds before and after those that it takes, in one slot of each class these too.
fn other_kinds() -> Vec<Case> {
    let mut done = Vec::new();
    let mut cases = Vec::new();
    for kind in KINDS {
        for (at, slot) in kind.slots.iter().enumerate() {
            let class = match slot.class {
                Class::List(element) => element.class,
                class => class,
            };
            let Class::Kinds(first, last) = class else {
                continue;
            };
            let held: Vec<u16> = match done.contains(&class) {
                true => vec![first - 1, last + 1],
                false => (first - 1..=last + 1).collect(),
            };
            let new = !done.contains(&class);
            done.push(class);
            let told = held.into_iter().filter(|&held| new || row(held).is_some());
            cases.extend(told.map(|held| holding(kind, at, slot, held)));
        }
    }
    cases
}

/// A kind in a slot, or in the list of a slot.
fn holding(kind: &Kind, at: usize, slot: &Slot, held: u16) -> Case {
    let mut records = match slot.class {
        Class::List(_) => Record::new(LIST, 1).bytes().to_vec(),
        _ => vec![],
    };
    records.extend(match row(held) {
        Some(_) => grow::smallest(held, 0).0,
        None => Record::new(held, 0).bytes().to_vec(),
    });
    let smallest = Case::from(grow::smallest(kind.number, 0));
    spliced(&smallest, at + 1, at + 2, &records)
}
