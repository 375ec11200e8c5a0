//! Records put in, taken out or exchanged.

use super::Case;
use crate::check::check;
use crate::grammar::{row, Class, CMD, KINDS, LIST, NONE, NUMBER, RUN, TEXT, TOKEN};
use crate::grow;
use crate::outline::{outline, Node};
use crate::record::{Record, SIZE};
use tokens::random::Random;
use tokens::token::known_numbers;

/// Puts records in the place of those from `from` to `to` - 1.
fn splice(case: &mut Case, from: usize, to: usize, records: &[u8]) {
    let range = from * SIZE..to * SIZE;
    case.tree.splice(range, records.iter().copied());
}

/// One of the nodes that are so. Only a good tree has nodes.
fn node(random: &mut Random, case: &Case, so: impl Fn(&Node) -> bool) -> Option<Node> {
    if check(&case.tree, &case.text) != (0, 0) {
        return None;
    }
    let mut nodes = outline(&case.tree);
    nodes.retain(so);
    match nodes.len() {
        0 => None,
        count => Some(nodes.swap_remove(random.below(count))),
    }
}

fn replace(case: &mut Case, node: &Node, records: &[u8]) {
    splice(case, node.index, node.end, records);
}

/// One record, or a whole small tree, of any class.
fn any_class(random: &mut Random) -> Vec<u8> {
    let record = match random.below(8) {
        0 => Record::new(NONE, 0),
        1 => Record::new(TEXT, 0),
        2 => Record::number(NUMBER, random.below(300) as i64),
        3 => Record::flagged(TOKEN, random.pick(known_numbers()), 0),
        4 => Record::new(LIST, 0),
        5 => Record::new(RUN, 0),
        _ => {
            let kind = KINDS[random.below(KINDS.len())];
            return grow::smallest(kind.number, 0).0;
        }
    };
    record.bytes().to_vec()
}

/// A copy of a record of the tree, or a new one.
fn some_record(random: &mut Random, case: &Case) -> [u8; SIZE] {
    let copied = Record::read(&case.tree, random.below(case.records().max(1)));
    match copied {
        Some(record) if random.one_in(2) => record.bytes(),
        _ => any_class(random)[..SIZE].try_into().unwrap(),
    }
}

pub fn inserted(random: &mut Random, case: &mut Case) {
    let record = some_record(random, case);
    let at = random.between(0, case.records());
    splice(case, at, at, &record);
}

pub fn removed(random: &mut Random, case: &mut Case) {
    if case.records() > 0 {
        let at = random.below(case.records());
        splice(case, at, at + 1, &[]);
    }
}

pub fn swapped(random: &mut Random, case: &mut Case) {
    if case.records() < 2 {
        return;
    }
    let at = random.below(case.records() - 1);
    let first = Record::read(&case.tree, at).unwrap();
    let second = Record::read(&case.tree, at + 1).unwrap();
    second.write(&mut case.tree, at);
    first.write(&mut case.tree, at + 1);
}

pub fn cut_off(random: &mut Random, case: &mut Case) {
    if case.records() > 1 {
        let keep = match random.one_in(3) {
            true => case.records() - 1,
            false => random.between(1, case.records() - 1),
        };
        case.tree.truncate(keep * SIZE);
    }
}

/// One to three more, good or not.
pub fn left_over(random: &mut Random, case: &mut Case) {
    for _ in 0..random.between(1, 3) {
        let record = match random.one_in(3) {
            true => random.bytes(SIZE),
            false => some_record(random, case).to_vec(),
        };
        case.tree.extend(record);
    }
}

/// Below a kind or a LIST. Most records are tokens of a RUN.
fn in_slot(node: &Node) -> bool {
    node.above.is_some_and(|above| above.kind != RUN)
}

pub fn none_in_slot(random: &mut Random, case: &mut Case) {
    if let Some(node) = node(random, case, in_slot) {
        replace(case, &node, &Record::new(NONE, 0).bytes());
    }
}

pub fn none_in_run(random: &mut Random, case: &mut Case) {
    if let Some(node) = node(random, case, |node| !in_slot(node)) {
        replace(case, &node, &Record::new(NONE, 0).bytes());
    }
}

/// A kind just before or after those that the slot takes.
pub fn kind_beside(random: &mut Random, case: &mut Case) {
    let Some(node) = node(random, case, of_a_kind) else {
        return;
    };
    let Class::Kinds(first, last) = node.slot.class else {
        return;
    };
    let kind = random.pick(&[first - 1, last + 1]);
    if row(kind).is_some() {
        replace(case, &node, &grow::smallest(kind, 0).0);
    }
}

fn of_a_kind(node: &Node) -> bool {
    matches!(node.slot.class, Class::Kinds(..))
}

/// Leaves a good tree.
pub fn run_for_kind(random: &mut Random, case: &mut Case) {
    if let Some(node) = node(random, case, of_a_kind) {
        let tokens = random.below(4);
        let mut run = Record::new(RUN, tokens as u16).bytes().to_vec();
        for _ in 0..tokens {
            let number = random.pick(known_numbers());
            run.extend(Record::flagged(TOKEN, number, 0).bytes());
        }
        replace(case, &node, &run);
    }
}

fn in_list(node: &Node) -> bool {
    node.above.is_some_and(|above| above.kind == LIST)
}

pub fn element_replaced(random: &mut Random, case: &mut Case) {
    if let Some(node) = node(random, case, in_list) {
        replace(case, &node, &any_class(random));
    }
}

pub fn slot_replaced(random: &mut Random, case: &mut Case) {
    if let Some(node) = node(random, case, in_slot) {
        replace(case, &node, &any_class(random));
    }
}

fn in_group(node: &Node) -> bool {
    node.above
        .is_some_and(|above| above.kind == LIST || above.kind == RUN)
}

/// Leaves a good tree, if the count follows.
pub fn element_doubled(random: &mut Random, case: &mut Case) {
    if let Some(node) = node(random, case, in_group) {
        let copy = case.tree[node.index * SIZE..node.end * SIZE].to_vec();
        splice(case, node.end, node.end, &copy);
        count_follows(random, case, &node, 1);
    }
}

pub fn element_taken_out(random: &mut Random, case: &mut Case) {
    if let Some(node) = node(random, case, in_group) {
        replace(case, &node, &[]);
        count_follows(random, case, &node, u16::MAX);
    }
}

fn count_follows(random: &mut Random, case: &mut Case, node: &Node, by: u16) {
    if let (Some(above), false) = (node.above, random.one_in(4)) {
        case.edit(above.index, |record| {
            record.children = record.children.wrapping_add(by);
        });
    }
}

/// A LIST or Cmd above takes the tree or not; a RUN does not.
pub fn under_another_root(random: &mut Random, case: &mut Case) {
    let kind = random.pick(&[LIST, LIST, CMD, CMD, RUN, 56, 94, 99, 110]);
    let root = Record::new(kind, 1).bytes();
    splice(case, 0, 0, &root);
}

pub fn random_bytes(random: &mut Random, case: &mut Case) {
    let records = random.between(1, 8);
    case.tree = random.bytes(records * SIZE);
    if random.one_in(2) {
        let length = random.between(0, 12);
        case.text = random.bytes(length);
    }
}

/// Good marks, small numbers.
pub fn random_records(random: &mut Random, case: &mut Case) {
    let records = random.between(1, 12);
    case.tree.clear();
    for _ in 0..records {
        let kind = match random.one_in(2) {
            true => random.below(6) as u16,
            false => KINDS[random.below(KINDS.len())].number,
        };
        let count = random.below(4) as u16;
        case.tree.extend(Record::new(kind, count).bytes());
    }
}
