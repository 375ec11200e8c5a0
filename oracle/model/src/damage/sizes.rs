//! Trees at the edges of length and depth.

use super::{fields, shape, Case};
use crate::check::{check, DEEPEST};
use crate::grammar::{LIST, RUN, TOKEN};
use crate::grow;
use crate::record::{Record, MOST_RECORDS, SIZE};
use tokens::random::Random;
use tokens::token::known_numbers;

pub fn empty_tree(_: &mut Random, case: &mut Case) {
    case.tree.clear();
}

/// A length that is no multiple of 16.
pub fn ragged_tree(random: &mut Random, case: &mut Case) {
    let bytes = random.between(1, SIZE - 1);
    match random.one_in(2) {
        true => case.tree.extend(vec![0; bytes]),
        false => case.tree.truncate(case.tree.len().saturating_sub(bytes)),
    }
}

pub fn depth(random: &mut Random, case: &mut Case) {
    let depth = random.between(63, 66);
    *case = grow::chain(random, depth).into();
}

type Change = fn(&mut Random, &mut Case);

const CHANGES: [Change; 4] = [
    fields::mark,
    fields::kind_near,
    fields::count_by_one,
    fields::unused_field,
];

pub fn depth_and_field(random: &mut Random, case: &mut Case) {
    let depth = random.between(64, 66);
    *case = grow::chain(random, depth).into();
    random.pick(&CHANGES)(random, case);
}

/// A chain that is too deep, and its first record at 65.
fn too_deep(random: &mut Random) -> (Case, usize) {
    let depth = random.between(DEEPEST + 1, DEEPEST + 2);
    let case = Case::from(grow::chain(random, depth));
    let (number, place) = check(&case.tree, &case.text);
    assert_eq!(number, 6, "a chain that is too deep");
    (case, place as usize)
}

/// Any one field of the first record at 65.
pub fn fault_at_65(random: &mut Random, case: &mut Case) {
    let (deep, place) = too_deep(random);
    *case = deep;
    let bit = 1 << random.below(8);
    let field = random.below(6);
    case.edit(place, |record| match field {
        0 => record.mark[0] ^= bit as u8,
        1 => record.kind ^= bit,
        2 => record.flags ^= bit,
        3 => record.children ^= bit,
        4 => record.start ^= u32::from(bit),
        _ => record.length ^= u32::from(bit),
    });
}

/// Cut anywhere, or just before or after the first record at 65.
pub fn depth_and_cut(random: &mut Random, case: &mut Case) {
    let (deep, place) = too_deep(random);
    *case = deep;
    match random.below(3) {
        0 => case.tree.truncate(place * SIZE),
        1 => case.tree.truncate((place + 1) * SIZE),
        _ => shape::cut_off(random, case),
    }
}

/// A tree of exactly this many records, good if they are not too many.
pub fn of_records(random: &mut Random, records: usize) -> Vec<u8> {
    let below = records - 1;
    let tokens = random.one_in(2);
    let root = if tokens { RUN } else { LIST };
    let mut tree = Record::new(root, below as u16).bytes().to_vec();
    for _ in 0..below {
        let child = match tokens {
            true => Record::flagged(TOKEN, random.pick(known_numbers()), 0),
            false => Record::new(RUN, 0),
        };
        tree.extend(child.bytes());
    }
    tree
}

pub fn tree_full(random: &mut Random, case: &mut Case) {
    case.tree = of_records(random, MOST_RECORDS);
    match random.below(4) {
        0 => fields::mark(random, case),
        1 => fields::count_by_one(random, case),
        _ => {}
    }
}

pub fn tree_over(random: &mut Random, case: &mut Case) {
    case.tree = of_records(random, MOST_RECORDS + 1);
}

pub fn tree_over_by_one(random: &mut Random, case: &mut Case) {
    case.tree = of_records(random, MOST_RECORDS);
    case.tree.push(0);
}
