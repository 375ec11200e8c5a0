//! Trees of the profile, and such with one thing broken, or more.

use super::{first_break, CREATE_TABLE, DEEPEST, STATEMENTS};
use crate::damage::{damage, run_for_kind, Case};
use crate::grammar::{row, CMD, FIRST_STMT, KINDS, LIST, REPLACE};
use crate::grow::whole::{self, Root};
use crate::random::Maker;
use crate::record::Record;
use crate::samples::of;
use crate::{check, editions, sources};
use tokens::random::Random;

/// Most records of a grown tree, about.
const GROWN: usize = 60;
/// The last kind of a statement.
const LAST_STMT: u16 = 64;
/// How many breaks there may be at once, or damages.
const SEVERAL: usize = 3;

/// A case without options, and in a few words what it is.
pub fn drawn(random: &mut Random) -> (&'static str, Case) {
    match random.below(16) {
        0..=2 => ("grown for the profile", of_profile(random)),
        3 => ("a value of the crate's types", from_value(random)),
        4 | 5 => ("nesting of 22 to 26", deep(random, DEEPEST)),
        6 => ("nesting of 62 to 66", deep(random, check::DEEPEST)),
        7 | 8 => broken("a RUN for a node", random, 1, &[run_for_kind]),
        9 => broken("another statement", random, 1, &[other_statement]),
        10 => broken("a Cmd with flags", random, 1, &[flagged]),
        11 => broken("under another root", random, 1, &[under_root]),
        12 => broken("several breaks", random, SEVERAL, &BREAKS),
        13 => broken("sources and rowids", random, 1, &[texts]),
        _ => broken("damaged", random, SEVERAL, &[damaged]),
    }
}

/// A way to break the profile, or to have measure refuse.
type Break = fn(&mut Random, &mut Case);

const BREAKS: [Break; 4] = [run_for_kind, other_statement, flagged, deeper];

/// A tree of the profile with up to so many of these breaks.
fn broken(
    name: &'static str,
    random: &mut Random,
    most: usize,
    breaks: &[Break],
) -> (&'static str, Case) {
    let mut case = match random.one_in(4) {
        true => deep(random, DEEPEST),
        false => of_profile(random),
    };
    for _ in 0..random.between(1, most) {
        let break_it = random.pick(breaks);
        break_it(random, &mut case);
    }
    (name, case)
}

fn any_root(random: &mut Random) -> Root {
    Root {
        statement: random.pick(&STATEMENTS),
        in_cmd: random.one_in(2),
    }
}

/// Grown from the grammar: any of the five statements, without a RUN for a node.
pub fn of_profile(random: &mut Random) -> Case {
    let root = any_root(random);
    let records = random.below(GROWN);
    whole::tree(random, root, records).into()
}

/// One of the five statements as the crate has it, with no RUN for a node.
fn from_value(random: &mut Random) -> Case {
    loop {
        let stmt = Maker::new(random).stmt();
        let case = Case::from(of(&stmt).pair);
        if case.refusal().0 > 0 || first_break(&case.tree) != Some(0) {
            return case;
        }
    }
}

/// A CREATE TABLE AS SELECT, nested about as deep as this.
fn deep(random: &mut Random, about: usize) -> Case {
    let root = Root {
        statement: CREATE_TABLE,
        ..any_root(random)
    };
    let depth = random.between(about - 2, about + 2);
    whole::chain(random, root, depth).into()
}

/// Any statement but the five instead.
fn other_statement(random: &mut Random, case: &mut Case) {
    let kinds = KINDS.iter().map(|kind| kind.number);
    let others = kinds.filter(|kind| (FIRST_STMT..=LAST_STMT).contains(kind));
    let others: Vec<u16> = others.filter(|kind| !STATEMENTS.contains(kind)).collect();
    let root = Root {
        statement: random.pick(&others),
        in_cmd: random.one_in(2),
    };
    let records = random.below(GROWN);
    *case = whole::tree(random, root, records).into();
}

/// Each value that the flags of a Cmd may have, 0 among them, and one that they may not.
fn flagged(random: &mut Random, case: &mut Case) {
    if Record::read(&case.tree, 0).is_some_and(|root| root.kind != CMD) {
        case.tree.splice(0..0, Record::new(CMD, 1).bytes());
    }
    let last = row(CMD).expect("a kind of the table").flags.last();
    let flags = random.between(0, usize::from(last) + 1) as u16;
    case.edit(0, |root| root.flags = flags);
}

/// A LIST with the tree in it, or a clause alone.
fn under_root(random: &mut Random, case: &mut Case) {
    if random.one_in(2) {
        let mut root = Record::new(LIST, 1).bytes().to_vec();
        root.append(&mut case.tree);
        case.tree = root;
        return;
    }
    let kinds = KINDS.iter().map(|kind| kind.number);
    let clauses = kinds.filter(|&kind| kind > LAST_STMT && kind != REPLACE);
    let root = Root {
        statement: random.pick(&clauses.collect::<Vec<_>>()),
        in_cmd: false,
    };
    let records = random.below(GROWN);
    *case = whole::tree(random, root, records).into();
}

/// A deep tree instead.
fn deeper(random: &mut Random, case: &mut Case) {
    *case = deep(random, DEEPEST);
}

/// A CREATE TABLE with other CHECK sources and without-rowid texts, which some options refuse.
fn texts(random: &mut Random, case: &mut Case) {
    let root = Root {
        statement: CREATE_TABLE,
        ..any_root(random)
    };
    *case = whole::tree(random, root, GROWN).into();
    sources::exchange(random, case);
    editions::exchange(random, case);
}

/// Any damage of the model.
fn damaged(random: &mut Random, case: &mut Case) {
    damage(random, case);
}
