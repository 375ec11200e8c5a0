//! The fixed list of cases: each kind and each refusal at its edges, then random ones.

mod edges;
pub mod editions;
mod kinds;
mod order;
mod sources;

use crate::damage::Case;
use crate::grammar::{NONE, NUMBER};
use crate::record::{Record, SIZE};
use crate::row::Row;
use tokens::random::Random;

/// Random cases above this size are left out.
const LARGE: usize = 4_000;

/// The listed cases, and random ones until there are `count`.
pub fn all(count: usize, seed: u64) -> Vec<Case> {
    let mut cases = plain(seed);
    cases.extend(sources::cases());
    cases.extend(editions::cases());
    let random_ones = Row::new(seed).map(|(_, case)| case);
    let small = random_ones.filter(|case| case.tree.len() + case.text.len() <= LARGE);
    let missing = count.saturating_sub(cases.len());
    cases.extend(small.take(missing));
    cases
}

/// The listed cases without options.
pub fn plain(seed: u64) -> Vec<Case> {
    let mut random = Random::new(seed);
    let mut cases = order::cases();
    cases.extend(kinds::cases(&mut random));
    cases.extend(edges::cases(&mut random));
    cases
}

/// The document's example: DROP TYPE IF EXISTS, with this name.
pub fn drop_type(name: &[u8]) -> Case {
    let records = [
        Record::new(10, 1),
        Record::flagged(61, 1, 1),
        Record::part(4, 0, 0, name.len() as u32),
    ];
    of(&records, name)
}

/// A case of these records.
pub fn of(records: &[Record], text: &[u8]) -> Case {
    let tree = records.iter().flat_map(|record| record.bytes()).collect();
    Case::from((tree, text.to_vec()))
}

/// The case with one record changed.
pub fn edited(case: &Case, index: usize, change: impl FnOnce(&mut Record)) -> Case {
    let mut case = case.clone();
    case.edit(index, change);
    case
}

/// A case whose text is all the part of the TEXT at an index, and ends in a character of two bytes; with one fault of that record each.
fn faults_at(case: &Case, index: usize) -> Vec<Case> {
    let length = case.text.len() as u32;
    let at = |change: &dyn Fn(&mut Record)| edited(case, index, change);
    vec![
        at(&|record| record.mark = [0x4E, 0x53]),
        at(&|record| record.kind = NUMBER),
        at(&|record| record.kind = NONE),
        at(&|record| record.flags = 1),
        at(&|record| record.children = 1),
        at(&|record| record.length = length - 1),
        at(&|record| record.length = length + 1),
        at(&|record| record.start = length + 1),
        at(&|record| (record.start, record.length) = (length - 1, 1)),
        at(&|record| record.start = u32::MAX),
        at(&|record| record.length = u32::MAX),
    ]
}

/// The case cut off behind so many records; with a record too many, a tree that is no row of records, and a text that is no
/// UTF-8 or is cut off.
pub fn faults_of_the_whole(case: &Case, cuts: &[usize]) -> Vec<Case> {
    let changed = |change: &dyn Fn(&mut Case)| {
        let mut case = case.clone();
        change(&mut case);
        case
    };
    let cut = |&records: &usize| changed(&|case| case.tree.truncate(records * SIZE));
    let mut cases: Vec<Case> = cuts.iter().map(cut).collect();
    cases.push(changed(&|case| {
        case.tree.extend(Record::new(NONE, 0).bytes())
    }));
    cases.push(changed(&|case| case.tree.push(0)));
    let ends = [&b"\xFF"[..], b"\xC3"];
    cases.extend(ends.map(|end| changed(&|case| case.text.extend(end))));
    cases
}

/// The case with records from `from` to `to` - 1 exchanged for others.
pub fn spliced(case: &Case, from: usize, to: usize, records: &[u8]) -> Case {
    let mut case = case.clone();
    let range = from * SIZE..to * SIZE;
    case.tree.splice(range, records.iter().copied());
    case
}
