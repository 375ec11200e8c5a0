//! The fixed list of the field profile: every rule at its edge, and small values of the five statements.

use super::{DEEPEST, STATEMENTS};
use crate::check;
use crate::damage::Case;
use crate::editions::{body_with, check as check_with_source, table_with};
use crate::encode::Encode;
use crate::fixed::{self, edited, faults_of_the_whole, spliced};
use crate::grammar::{row, Class, CMD, KINDS, LIST, REPLACE, RUN};
use crate::grow::smallest;
use crate::options::{Edition, MEANT, SETTINGS};
use crate::outline::outline;
use crate::random::select::{all_from, only};
use crate::random::Maker;
use crate::record::Record;
use crate::samples::{of_in, Judged};
use tokens::random::Random;
use turso_parser::ast::{Cmd, CreateTableBody, FromClause, Name, QualifiedName, SelectTable, Stmt};

const SEED: u64 = 1;
/// Values of each of the five statements, and the most bytes of tree and text of one.
const VALUES: usize = 4;
const SMALL: usize = 1_000;
/// Bits of the options that mean nothing: all of them.
const OTHERS: u32 = !MEANT;
/// CREATE TABLE AS SELECT with a named table has nine levels; a bracket adds two, and a select in brackets five.
const LEVELS: usize = 9;
const BRACKET: usize = 2;
const SELECT: usize = 5;

/// In the order in which they are stored. What is expected is the profile's answer; of an admitted one, the crate's text.
pub fn all() -> Vec<Judged> {
    let mut random = Random::new(SEED);
    let values = values(&mut random);
    [
        values.iter().flat_map(ways).collect(),
        values.iter().flat_map(runs_for_nodes).collect(),
        nested(),
        roots(),
        options(),
        refused(),
    ]
    .concat()
}

/// `0 LENGTH`, or the refusal.
pub fn line(judged: &Judged) -> String {
    match &judged.expected {
        Ok(text) => format!("0 {}", text.len()),
        Err((number, place)) => format!("{number} {place}"),
    }
}

/// The profile's answer for a value.
fn of(value: &dyn Encode, options: u32) -> Judged {
    let sample = of_in(Edition::of(options), value);
    let case = Case::from(sample.pair).with(options);
    let expected = match case.profile_refusal() {
        (0, _) => Ok(sample.text),
        refusal => Err(refusal),
    };
    Judged { case, expected }
}

/// The answer for a tree that has no value, and is refused or breaks the profile; no others.
fn broken(case: Case) -> Option<Judged> {
    let refusal = case.profile_refusal();
    let expected = Err(refusal);
    (refusal.0 > 0).then_some(Judged { case, expected })
}

/// Small values of each of the five statements.
fn values(random: &mut Random) -> Vec<Stmt> {
    let mut values = vec![];
    let mut missing = STATEMENTS.map(|kind| (kind, VALUES));
    while missing.iter().any(|(_, count)| *count > 0) {
        let stmt = Maker::new(random).stmt();
        let case = of(&stmt, 0).case;
        let root = Record::read(&case.tree, 0).map(|record| record.kind);
        let of_kind = missing.iter_mut().find(|(kind, _)| root == Some(*kind));
        let small = case.tree.len() + case.text.len() <= SMALL;
        if let Some((_, count)) = of_kind.filter(|(_, count)| small && *count > 0) {
            *count -= 1;
            values.push(stmt);
        }
    }
    values
}

/// Alone, in a Cmd, and in one with flags.
fn ways(stmt: &Stmt) -> Vec<Judged> {
    let cmd = Cmd::Stmt(stmt.clone());
    let explain = Cmd::Explain(stmt.clone());
    let values: [&dyn Encode; 3] = [stmt, &cmd, &explain];
    values.map(|value| of(value, 0)).to_vec()
}

/// A RUN in the place of each node, one after the other; then of the first and the last.
fn runs_for_nodes(stmt: &Stmt) -> Vec<Judged> {
    let case = of(stmt, 0).case;
    let nodes = outline(&case.tree);
    let run = Record::new(RUN, 0).bytes();
    let of_kinds = nodes.iter().filter(|node| {
        let record = Record::read(&case.tree, node.index).expect("an admitted tree");
        matches!(node.slot.class, Class::Kinds(..)) && record.kind != RUN
    });
    let of_kinds: Vec<_> = of_kinds.collect();
    let with_run = |case: &Case, from, to| spliced(case, from, to, &run);
    let mut cases: Vec<Case> = of_kinds
        .iter()
        .map(|node| with_run(&case, node.index, node.end))
        .collect();
    if let (Some(first), Some(last)) = (of_kinds.first(), of_kinds.last()) {
        if first.end <= last.index {
            let one = with_run(&case, last.index, last.end);
            cases.push(with_run(&one, first.index, first.end));
        }
    }
    cases.into_iter().filter_map(broken).collect()
}

/// CREATE TABLE t AS SELECT * FROM a table in brackets, its name's token at this depth.
fn nested_table(depth: usize) -> Stmt {
    let more = depth - LEVELS;
    let selects = more % BRACKET;
    let brackets = (more - selects * SELECT) / BRACKET;
    let name = QualifiedName::single(Name::exact("deep".to_string()));
    let mut from: FromClause = only(SelectTable::Table(name, None, None));
    for _ in 0..selects {
        from = only(SelectTable::Select(all_from(from), None));
    }
    for _ in 0..brackets {
        from = only(SelectTable::Sub(from, None));
    }
    table_with(CreateTableBody::AsSelect(all_from(from)))
}

/// About as deep as the profile takes, and as the full check takes; alone and in a Cmd, which is counted.
fn nested() -> Vec<Judged> {
    let mut cases = vec![];
    for about in [DEEPEST, check::DEEPEST] {
        for depth in about - 2..=about + 2 {
            let stmt = nested_table(depth);
            cases.push(of(&stmt, 0));
            cases.push(of(&Cmd::Stmt(stmt.clone()), 0));
            cases.extend(beside_depth(&stmt));
        }
    }
    cases
}

/// A RUN for a compound select behind the deep records, and one for the with clause before them.
fn beside_depth(stmt: &Stmt) -> Vec<Judged> {
    let case = of(stmt, 0).case;
    let run = Record::new(RUN, 0).bytes();
    // What stands behind the FROM of the outermost select: WHERE, GROUP BY and windows; then the compounds.
    let compounds = case.records() - 3;
    let behind = edited(&case, compounds, |record| record.children = 1);
    let behind = spliced(&behind, compounds + 1, compounds + 1, &run);
    // CREATE TABLE, its name with a token, AS SELECT and the select stand before the with clause.
    let with = 5;
    let before = spliced(&case, with, with + 1, &run);
    [behind, before].into_iter().filter_map(broken).collect()
}

/// Every other kind at the root and in a Cmd; the five with each flag of a Cmd and in a LIST; a RUN and an empty LIST.
fn roots() -> Vec<Judged> {
    let kinds = KINDS.iter().map(|kind| kind.number);
    let trees = kinds.filter(|&kind| kind != REPLACE);
    let mut cases: Vec<Case> = trees.map(|kind| smallest(kind, 0).into()).collect();
    cases.push(fixed::of(&[Record::new(RUN, 0)], b""));
    cases.push(fixed::of(&[Record::new(LIST, 0)], b""));
    let below: Vec<Case> = cases.iter().flat_map(below_roots).collect();
    cases.extend(below);
    cases.into_iter().filter_map(broken).collect()
}

/// The tree in a Cmd; one of the five statements in a Cmd with each of its flags and in a LIST, too.
fn below_roots(case: &Case) -> Vec<Case> {
    let flags = 0..=row(CMD).expect("a kind of the table").flags.last();
    let mut above: Vec<Record> = flags.map(|flags| Record::flagged(CMD, flags, 1)).collect();
    above.push(Record::new(LIST, 1));
    let root = Record::read(&case.tree, 0).expect("a tree");
    if !STATEMENTS.contains(&root.kind) {
        above.truncate(1);
    }
    let below = |root: &Record| spliced(case, 0, 0, &root.bytes());
    above.iter().map(below).collect()
}

/// A CHECK that is left open and a without-rowid text of other words, with each setting of the options; in a table of the
/// profile, and with a body alone.
fn options() -> Vec<Judged> {
    let mut body = body_with(Some("rowid".to_string()), Some("strict".to_string()));
    if let CreateTableBody::ColumnsAndConstraints { constraints, .. } = &mut body {
        constraints.push(check_with_source("a/*".to_string()));
    }
    let both = body_with(
        Some("without rowid".to_string()),
        Some("strict".to_string()),
    );
    let tables = [table_with(body.clone()), table_with(both.clone())];
    let mut cases = vec![];
    for setting in SETTINGS {
        for options in [setting, setting | OTHERS] {
            cases.extend(tables.iter().map(|table| of(table, options)));
            cases.extend([&body, &both].map(|body| of(body, options)));
        }
    }
    cases
}

/// Each refusal of measure, in a table of the profile and in one that breaks it.
fn refused() -> Vec<Judged> {
    let table = table_with(body_with(Some("caf\u{E9}".to_string()), None));
    let whole = of(&Cmd::Stmt(table.clone()), 0).case;
    let explained = of(&Cmd::Explain(table), 0).case;
    let mut cases = vec![];
    for case in [&whole, &explained] {
        let last = case.records() - 1;
        for index in 0..=last {
            cases.push(edited(case, index, |record| record.mark = [0, 0]));
            cases.push(edited(case, index, |record| record.flags |= 1 << 12));
            cases.push(edited(case, index, |record| record.length = u32::MAX));
        }
        cases.extend(faults_of_the_whole(case, &[0, 1, last]));
    }
    cases.into_iter().filter_map(broken).collect()
}
