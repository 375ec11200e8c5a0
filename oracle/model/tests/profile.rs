//! The field profile, by examples made by hand: each rule at its edge.

use model::damage::Case;
use model::files::write_case;
use model::fixed::of;
use model::grammar::{CHECK, CMD, LIST, NONE, RUN, TABLE_BODY, TEXT, TOKEN};
use model::grow::whole::{self, Root};
use model::options::{SQLITE, STRICT};
use model::profile::listed;
use model::profile::{
    ALTER_TABLE, BROKEN, CREATE_INDEX, CREATE_TABLE, DEEPEST, DROP_INDEX, DROP_TABLE, STATEMENTS,
};
use model::record::{Record, SIZE};
use std::collections::BTreeSet;
use tokens::random::Random;

const DROP_VIEW: u16 = 48;
const SELECT: u16 = 80;
const SELECT_BODY: u16 = 81;
const ONE_SELECT: u16 = 83;
const FROM: u16 = 85;
const TABLE: u16 = 87;
const SUB: u16 = 90;
const ADD_COLUMN: u16 = 94;
const AS_SELECT: u16 = 99;
const COLUMN: u16 = 100;
const NAMED_CONSTRAINT: u16 = 120;

/// Cases of the fixed list, at least and at most, and its bytes.
const FEWEST: usize = 150;
const MOST: usize = 400;
const MOST_BYTES: usize = 150_000;

/// Admitted by the profile.
const FINE: (u32, u32) = (0, 0);

fn rec(kind: u16, children: u16) -> Record {
    Record::new(kind, children)
}

fn run() -> Record {
    rec(RUN, 0)
}

fn none() -> Record {
    rec(NONE, 0)
}

fn answer(records: &[Record]) -> (u32, u32) {
    of(records, b"").profile_refusal()
}

/// Broken at this record.
fn at(index: u32) -> (u32, u32) {
    (BROKEN, index)
}

/// CREATE TABLE with one column in this place, and one constraint in that.
fn table(column: &[Record], constraint: &[Record]) -> Vec<Record> {
    let mut records = vec![rec(CREATE_TABLE, 2), run(), rec(TABLE_BODY, 4)];
    records.push(rec(LIST, 1));
    records.extend(column);
    records.push(rec(LIST, 1));
    records.extend(constraint);
    records.extend([none(), none()]);
    records
}

fn column() -> Vec<Record> {
    vec![rec(COLUMN, 3), run(), none(), rec(LIST, 1), run()]
}

/// A CHECK whose expression is a RUN.
fn constraint() -> Vec<Record> {
    vec![
        rec(NAMED_CONSTRAINT, 2),
        none(),
        rec(CHECK, 2),
        run(),
        none(),
    ]
}

/// CREATE TABLE AS SELECT from a table in so many brackets, alone or below a Cmd; a token makes it a level deeper.
fn brackets(count: usize, in_cmd: bool, token: bool) -> Case {
    let mut records = vec![];
    if in_cmd {
        records.push(rec(CMD, 1));
    }
    records.extend([rec(CREATE_TABLE, 2), run(), rec(AS_SELECT, 1)]);
    records.extend([rec(SELECT, 4), none(), rec(SELECT_BODY, 2)]);
    records.extend([rec(ONE_SELECT, 6), none(), rec(LIST, 0)]);
    for _ in 0..count {
        records.extend([rec(FROM, 2), rec(SUB, 2)]);
    }
    records.extend([rec(FROM, 2), rec(TABLE, 3)]);
    match token {
        true => records.extend([rec(RUN, 1), rec(TOKEN, 0)]),
        false => records.push(run()),
    }
    records.extend([none(), none(), rec(LIST, 0)]);
    for _ in 0..count {
        records.extend([none(), rec(LIST, 0)]);
    }
    records.extend([none(), none(), rec(LIST, 0)]);
    records.extend([rec(LIST, 0), none(), none()]);
    of(&records, b"")
}

/// The depth of the deepest record.
fn depth(case: &Case) -> usize {
    let nodes = model::outline::outline(&case.tree);
    nodes.iter().map(|node| node.depth).max().unwrap()
}

/// The first record at a depth.
fn first_at(case: &Case, depth: usize) -> u32 {
    let nodes = model::outline::outline(&case.tree);
    let node = nodes.iter().find(|node| node.depth == depth).unwrap();
    node.index as u32
}

#[test]
fn the_five_statements_are_received_alone_and_in_a_cmd() {
    let drop_table = [rec(DROP_TABLE, 1), run()];
    let drop_index = [rec(DROP_INDEX, 1), run()];
    let lists = [rec(LIST, 0), rec(LIST, 0), none()];
    let index = [
        &[rec(CREATE_INDEX, 6), run(), run(), none()][..],
        &lists[..],
    ]
    .concat();
    let alter = [
        &[rec(ALTER_TABLE, 2), run(), rec(ADD_COLUMN, 1)],
        &column()[..],
    ]
    .concat();
    let create = table(&column(), &constraint());
    let statements: [&[Record]; 5] = [&drop_table, &drop_index, &index, &alter, &create];
    for records in statements {
        assert!(STATEMENTS.contains(&records[0].kind));
        assert_eq!(answer(records), FINE);
        assert_eq!(answer(&[&[rec(CMD, 1)], records].concat()), FINE);
    }
}

#[test]
fn another_statement_breaks_at_itself() {
    let drop_view = [rec(DROP_VIEW, 1), run()];
    assert_eq!(answer(&drop_view), at(0));
    assert_eq!(answer(&[&[rec(CMD, 1)], &drop_view[..]].concat()), at(1));
}

#[test]
fn a_cmd_with_flags_breaks_at_the_cmd() {
    for flags in 1..=3 {
        let cmd = Record::flagged(CMD, flags, 1);
        assert_eq!(answer(&[cmd, rec(DROP_TABLE, 1), run()]), at(0));
        assert_eq!(answer(&[cmd, rec(DROP_VIEW, 1), run()]), at(0));
    }
}

#[test]
fn a_run_a_list_and_a_clause_are_no_statement() {
    assert_eq!(answer(&[run()]), at(0));
    assert_eq!(answer(&[rec(CMD, 1), run()]), at(1));
    assert_eq!(answer(&[rec(LIST, 0)]), at(0));
    assert_eq!(answer(&[rec(LIST, 1), rec(DROP_TABLE, 1), run()]), at(0));
    assert_eq!(answer(&column()), at(0));
}

#[test]
fn a_run_for_a_node_breaks_and_one_for_an_expression_does_not() {
    let (column, constraint) = (column(), constraint());
    assert_eq!(answer(&table(&column, &constraint)), FINE);
    assert_eq!(answer(&table(&[run()], &constraint)), at(4));
    assert_eq!(answer(&table(&column, &[run()])), at(10));
    let for_check = [rec(NAMED_CONSTRAINT, 2), none(), run()];
    assert_eq!(answer(&table(&column, &for_check)), at(12));
    let body = [rec(CREATE_TABLE, 2), run(), run()];
    assert_eq!(answer(&body), at(2));
    let mut for_type = column.clone();
    for_type[2] = run();
    assert_eq!(answer(&table(&for_type, &constraint)), at(6));
}

#[test]
fn the_first_by_index_is_told() {
    assert_eq!(answer(&table(&[run()], &[run()])), at(4));
    let statement = [rec(CMD, 1), rec(CREATE_TABLE, 2), run(), run()];
    assert_eq!(answer(&statement), at(3));
    let flagged = [&[Record::flagged(CMD, 1, 1)], &statement[1..]].concat();
    assert_eq!(answer(&flagged), at(0));
}

#[test]
fn a_run_before_a_deep_record_is_told_and_one_behind_it_is_not() {
    let mut case = brackets(9, false, false);
    let deep = first_at(&case, DEEPEST + 1);
    assert_eq!(case.profile_refusal(), at(deep));
    // The compound selects stand behind the deep FROM, and take a node each.
    let compounds = case.records() - 3;
    case.edit(compounds, |record| record.children = 1);
    case.tree.splice(
        (compounds + 1) * SIZE..(compounds + 1) * SIZE,
        run().bytes(),
    );
    assert_eq!(case.refusal(), FINE);
    assert_eq!(case.profile_refusal(), at(deep));
    // The with clause stands before it.
    case.edit(4, |record| record.kind = RUN);
    assert_eq!(case.profile_refusal(), at(4));
}

#[test]
fn nesting_of_24_is_received_and_25_breaks() {
    // Eight brackets around the table's name and seven below a Cmd, where the name has a token: the Cmd is counted.
    for (count, in_cmd, token) in [(8, false, false), (7, true, true)] {
        let case = brackets(count, in_cmd, token);
        assert_eq!(depth(&case), DEEPEST);
        assert_eq!(case.profile_refusal(), FINE);
    }
    for (count, in_cmd, token) in [(8, false, true), (8, true, false)] {
        let case = brackets(count, in_cmd, token);
        assert_eq!(depth(&case), DEEPEST + 1);
        assert_eq!(case.profile_refusal(), at(first_at(&case, DEEPEST + 1)));
    }
    let far = brackets(27, true, true);
    assert_eq!(depth(&far), 64);
    assert_eq!(far.profile_refusal(), at(first_at(&far, DEEPEST + 1)));
    assert_eq!(brackets(28, false, true).profile_refusal().0, 6);
}

#[test]
fn measures_refusals_come_first() {
    let mut case = of(&[rec(CMD, 1), rec(DROP_VIEW, 1), run()], b"");
    assert_eq!(case.profile_refusal(), at(1));
    case.tree.extend(none().bytes());
    assert_eq!(case.profile_refusal(), (7, 3));
    case.text = b"\xE2\x82".to_vec();
    assert_eq!(case.profile_refusal(), (12, 0));
    case.tree.pop();
    assert_eq!(case.profile_refusal(), (1, 0));
}

#[test]
fn options_are_those_of_measure() {
    let check = [rec(CHECK, 2), run(), Record::part(TEXT, 0, 0, 2)];
    let open = of(&check, b"/*");
    assert_eq!(open.profile_refusal(), at(0));
    assert_eq!(open.with(STRICT).profile_refusal(), (9, 2));
    let text = Record::part(TEXT, 0, 0, 1);
    let body = [rec(TABLE_BODY, 4), rec(LIST, 0), rec(LIST, 0), text, none()];
    let other = of(&body, b"x");
    assert_eq!(other.profile_refusal(), at(0));
    assert_eq!(other.with(SQLITE).profile_refusal(), (10, 3));
}

#[test]
fn grown_trees_are_of_the_profile() {
    let mut random = Random::new(1);
    for statement in STATEMENTS {
        for records in 0..60 {
            let in_cmd = records % 2 == 0;
            let root = Root { statement, in_cmd };
            let case = Case::from(whole::tree(&mut random, root, records));
            assert_eq!(case.refusal(), FINE);
            let refusal = case.profile_refusal();
            assert!(refusal == FINE || depth(&case) > DEEPEST);
        }
    }
}

#[test]
fn grown_chains_are_as_deep_as_asked() {
    let mut random = Random::new(1);
    for wanted in 10..=64 {
        let root = Root {
            statement: CREATE_TABLE,
            in_cmd: wanted % 3 == 0,
        };
        let case = Case::from(whole::chain(&mut random, root, wanted));
        assert_eq!(depth(&case), wanted);
        let expected = match wanted > DEEPEST {
            true => at(first_at(&case, DEEPEST + 1)),
            false => FINE,
        };
        assert_eq!(case.profile_refusal(), expected);
    }
}

#[test]
fn the_fixed_list_has_every_number_and_is_small() {
    let cases = listed::all();
    let number = |line: &str| line.split(' ').next().map(str::to_string);
    let numbers: BTreeSet<String> = cases
        .iter()
        .filter_map(|judged| number(&listed::line(judged)))
        .collect();
    let all = (0..=12).filter(|&number| number != 8);
    assert_eq!(numbers, all.map(|number: u32| number.to_string()).collect());
    assert!((FEWEST..=MOST).contains(&cases.len()), "{}", cases.len());
    let mut bytes = vec![];
    for judged in &cases {
        write_case(&mut bytes, &judged.case).unwrap();
    }
    assert!(bytes.len() < MOST_BYTES, "{} bytes", bytes.len());
}
