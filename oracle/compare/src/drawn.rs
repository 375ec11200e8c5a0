//! Trees with texts that a rule is for, CHECK sources or without-rowid texts: good ones, and such with faults before such a text,
//! at it and behind it.

use model::damage::{damage, Case};
use model::grammar::{KINDS, LIST, NONE, NUMBER, REPLACE, RUN};
use model::options::Edition;
use model::record::{Record, SIZE};
use model::samples::{drawn_in, sample};
use model::shared::Shared;
use model::{editions, grow, options, sources};
use tokens::random::Random;

/// Most records of a grown tree, about.
const GROWN: usize = 60;
/// Most elements of a LIST.
const ELEMENTS: usize = 4;
/// The depths of a chain beside a table.
const SHALLOW: usize = 62;
const DEEP: usize = 66;

/// What makes a record 3 or 4, whatever it is.
const FAULTS: [fn(&mut Record); 4] = [
    |record| record.mark = [0x4E, 0x53],
    |record| record.kind = 200,
    |record| record.flags = 1 << 12,
    |record| record.children ^= 1 << 9,
];
/// What makes a TEXT 3, 4 or 5.
const AT_TEXT: [fn(&mut Record); 8] = [
    |record| record.mark[0] = 0,
    |record| record.kind = NUMBER,
    |record| record.flags = 1,
    |record| record.children = 1,
    |record| record.length += 1 << 17,
    |record| record.start += 1 << 17,
    |record| record.start = u32::MAX,
    |record| record.length = u32::MAX,
];

/// Which texts are looked at, and trees with many of them.
pub struct Focus {
    /// The places of such texts in a tree, whatever stands there.
    pub places: fn(&[u8]) -> Vec<usize>,
    pub text: fn(&mut Random) -> String,
    /// A CREATE TABLE, maybe in a Cmd.
    table: fn(&mut Random) -> Case,
    /// What may stand beside such a table in a LIST.
    clause: fn(&mut Random) -> Case,
    /// Gives the tree of another comparison such texts.
    exchange: fn(&mut Random, &mut Case),
}

/// CHECK sources (request vii).
pub const SOURCES: Focus = Focus {
    places: sources::places,
    text: sources::any,
    table: |random| sources::table(random).into(),
    clause: |random| sources::check(random).into(),
    exchange: |random, case| match random.one_in(2) {
        true => sources::exchange(random, case),
        false => sources::exchange_all(random, case),
    },
};

/// Without-rowid texts, and operator texts with quotes (request viii).
pub const EDITIONS: Focus = Focus {
    places: editions::rowids,
    text: editions::rowid,
    table: |random| {
        let stmt = editions::table(random);
        drawn_in(Edition::Crate, random, &stmt).pair.into()
    },
    clause: |random| {
        let value = editions::value(random);
        let case = drawn_in(Edition::Crate, random, &*value).pair.into();
        element(case)
    },
    exchange: editions::exchange,
};

/// A case with any options, and in a few words what it is.
pub fn drawn(focus: &Focus, random: &mut Random) -> (&'static str, Case) {
    let (part, case) = tree(focus, random);
    (part, case.with(options::any(random)))
}

/// The same without options.
pub fn tree(focus: &Focus, random: &mut Random) -> (&'static str, Case) {
    let mut case = with_text(focus, random);
    match random.below(12) {
        0..=3 => ("good trees", good(focus, random)),
        4 => {
            at_a_text(focus, random, &mut case);
            ("a fault at such a text", case)
        }
        5 => {
            inside_a_character(focus, random, &mut case);
            ("such a text that ends inside a character", case)
        }
        6 | 7 => {
            beside_a_text(focus, random, &mut case);
            ("a fault before or behind such a text", case)
        }
        8 => {
            let records = random.between(1, case.records());
            case.tree.truncate(records * SIZE);
            ("records missing", case)
        }
        9 => {
            case.tree.extend(Record::new(NONE, 0).bytes());
            ("records left over", case)
        }
        10 => (
            "beside a chain of 62 to 66 records",
            beside_a_chain(focus, random),
        ),
        _ => {
            for _ in 0..random.between(1, 3) {
                damage(random, &mut case);
            }
            ("damaged", case)
        }
    }
}

/// A good tree that has a place for such a text at least.
fn with_text(focus: &Focus, random: &mut Random) -> Case {
    loop {
        let case = good(focus, random);
        if !(focus.places)(&case.tree).is_empty() {
            return case;
        }
    }
}

/// A tree with such texts mostly.
pub fn good(focus: &Focus, random: &mut Random) -> Case {
    match random.below(8) {
        0 => (focus.clause)(random),
        1..=4 => (focus.table)(random),
        5 => listed(focus, random),
        _ => generated(focus, random),
    }
}

/// From the other comparisons' generators, with such texts.
fn generated(focus: &Focus, random: &mut Random) -> Case {
    let mut case = match random.below(3) {
        0 => sample(random).pair.into(),
        1 => {
            let kinds = KINDS.iter().map(|kind| kind.number);
            let roots: Vec<u16> = kinds.filter(|&kind| kind != REPLACE).collect();
            let root = random.pick(&roots);
            Case::from(grow::fullest(random, root))
        }
        _ => {
            let records = random.below(GROWN);
            Case::from(grow::tree(random, records))
        }
    };
    (focus.exchange)(random, &mut case);
    case
}

/// Tables, clauses and RUNs in a LIST.
fn listed(focus: &Focus, random: &mut Random) -> Case {
    let count = random.between(1, ELEMENTS);
    let elements = (0..count).map(|_| match random.below(3) {
        0 => (focus.clause)(random),
        1 => element((focus.table)(random)),
        _ => Case::from((Record::new(RUN, 0).bytes().to_vec(), vec![])),
    });
    let elements: Vec<Case> = elements.collect();
    joined(&elements)
}

/// What a root LIST may hold of a tree: no Cmd, but its statement.
fn element(mut case: Case) -> Case {
    if Record::read(&case.tree, 0).is_some_and(|root| root.kind == 10) {
        case.tree.drain(..SIZE);
    }
    case
}

/// A LIST of trees. Each names its own part of the text still.
fn joined(cases: &[Case]) -> Case {
    let mut whole = Shared {
        trees: Record::new(LIST, cases.len() as u16).bytes().to_vec(),
        text: vec![],
    };
    for case in cases {
        whole.add(&case.tree, &case.text);
    }
    Case::from((whole.trees, whole.text))
}

/// A table before a chain of records, or behind it: the only way to have 6 beside such a text, which is never deep itself.
fn beside_a_chain(focus: &Focus, random: &mut Random) -> Case {
    let table = element((focus.table)(random));
    let depth = random.between(SHALLOW, DEEP);
    let chain = chain(depth - 1);
    match random.one_in(2) {
        true => joined(&[table, chain]),
        false => joined(&[chain, table]),
    }
}

/// FROM clauses (85) in brackets (90), so many records below one another.
fn chain(depth: usize) -> Case {
    let kinds = [85, 90];
    let behind = [LIST, NONE];
    let mut records: Vec<Record> = (1..depth)
        .map(|level| Record::new(kinds[(level + 1) % 2], 2))
        .collect();
    records.push(Record::new(RUN, 0));
    records.extend(
        (1..depth)
            .rev()
            .map(|level| Record::new(behind[(level + 1) % 2], 0)),
    );
    model::fixed::of(&records, &[])
}

/// The place of one such text of the tree.
fn a_text(focus: &Focus, random: &mut Random, case: &Case) -> usize {
    random.pick(&(focus.places)(&case.tree))
}

fn at_a_text(focus: &Focus, random: &mut Random, case: &mut Case) {
    let place = a_text(focus, random, case);
    sources::put(case, place, &(focus.text)(random));
    case.edit(place, random.pick(&AT_TEXT));
}

/// The last character is a wide one, and the part is a byte short of it.
fn inside_a_character(focus: &Focus, random: &mut Random, case: &mut Case) {
    let place = a_text(focus, random, case);
    let text = (focus.text)(random) + random.pick(&["\u{E9}", "\u{20AC}"]);
    sources::put(case, place, &text);
    case.edit(place, |record| record.length -= 1);
}

/// At the record before such a text or behind it, or at any record.
fn beside_a_text(focus: &Focus, random: &mut Random, case: &mut Case) {
    let place = a_text(focus, random, case);
    let last = case.records() - 1;
    let any = random.between(0, last);
    let at = random.pick(&[place - 1, (place + 1).min(last), any]);
    case.edit(at, random.pick(&FAULTS));
}
