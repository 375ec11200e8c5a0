//! The document's cases, the smallest example of each refusal, and which of two comes first.

use super::{drop_type, edited, of};
use crate::damage::Case;
use crate::grammar::{LIST, NONE, RUN, TEXT};
use crate::grow;
use crate::record::{Record, SIZE};
use tokens::random::Random;

const BAD: [u8; 1] = [0xFF];

pub fn cases() -> Vec<Case> {
    let mut cases = vec![drop_type(b"geo")];
    cases.extend(smallest());
    cases.extend(two_faults());
    cases.extend(with_depth());
    cases
}

fn smallest() -> Vec<Case> {
    let run = of(&[Record::new(RUN, 0)], &[]);
    vec![
        run.clone(),
        of(&[], &[]),
        of(&[Record::new(RUN, 0)], &BAD),
        edited(&run, 0, |record| record.mark = [0, 0]),
        of(&[Record::new(NONE, 0)], &[]),
        of(&[Record::new(RUN, 1), Record::part(2, 0x8000, 0, 1)], &[]),
        of(&[Record::new(RUN, 1)], &[]),
        of(&[Record::new(RUN, 0), Record::new(RUN, 0)], &[]),
    ]
}

/// Each pair of refusals, at one record or at two.
fn two_faults() -> Vec<Case> {
    let good = drop_type(b"geo");
    let bad_text = drop_type(b"ge\xFF");
    let mut ragged = bad_text.clone();
    ragged.tree.push(0);
    let mut empty = bad_text.clone();
    empty.tree.clear();
    let mut longer = good.clone();
    longer.tree.extend([0; SIZE]);
    let mut shorter = good.clone();
    shorter.tree.truncate(2 * SIZE);
    let no_mark = |record: &mut Record| record.mark = [0x4E, 0x53];
    let over = |record: &mut Record| record.length = 4;
    let counted = |record: &mut Record| record.children = 1;
    vec![
        ragged,
        empty,
        edited(&bad_text, 0, no_mark),
        edited(&bad_text, 2, counted),
        edited(&edited(&good, 2, counted), 2, no_mark),
        edited(&edited(&good, 2, over), 2, no_mark),
        edited(&edited(&good, 2, over), 2, counted),
        edited(&edited(&good, 2, no_mark), 1, counted),
        edited(&edited(&good, 2, no_mark), 1, |record| record.flags = 2),
        edited(&edited(&good, 1, no_mark), 2, over),
        edited(&longer, 2, over),
        edited(&longer, 2, no_mark),
        edited(&shorter, 1, no_mark),
        edited(&shorter, 1, counted),
        edited(&shorter, 1, |record| record.children = 2),
        edited(&good, 0, |record| record.children = 0),
        edited(&longer, 0, |record| record.children = 2),
    ]
}

/// A LIST of two: a chain of this depth, and a text part past the end or a good one.
fn under_list(random: &mut Random, depth: usize) -> Case {
    loop {
        let (tree, text) = grow::chain(random, depth - 1);
        let root = Record::read(&tree, 0).expect("a root");
        // What may be a root is more than what may stand in its LIST.
        if root.kind > 10 {
            let mut whole = Record::new(LIST, 2).bytes().to_vec();
            whole.extend(tree);
            whole.extend(Record::flagged(64, 0, 1).bytes());
            whole.extend(Record::part(TEXT, 0, 0, text.len() as u32).bytes());
            return Case::from((whole, text));
        }
    }
}

fn with_depth() -> Vec<Case> {
    let mut random = Random::new(7);
    let mut cases = Vec::new();
    for depth in [64, 65] {
        let case = under_list(&mut random, depth);
        let last = case.records() - 1;
        cases.push(case.clone());
        cases.push(edited(&case, last, |record| record.length += 1));
        cases.push(edited(&case, 1, |record| record.mark[1] = 0));
    }
    cases
}
