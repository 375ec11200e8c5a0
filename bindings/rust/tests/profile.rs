//! The field profile (request xi), through the crate: each rule at its edge, and the list that the oracle stored.

mod common;

use common::{hex, trees};
use kinyandoma::{
    id, measure, measure_with, profile, profile_with, render_to_string_with, Kind, Node, Options,
    Reason, Refusal, Run, EXPLAIN,
};

/// The deepest that a record of the profile stands.
const DEEPEST: usize = 24;

/// The answer for a tree: the length, or number and place.
fn answer(node: Node) -> Result<usize, (u32, usize)> {
    let (tree, text) = node.finish().unwrap();
    let given = profile(&tree, &text);
    if given.is_ok() {
        assert_eq!(given, measure(&tree, &text));
    }
    given.map_err(|refusal| (refusal.number, refusal.place))
}

fn drop_table() -> Node {
    Node::new(Kind::DropTable).child(id("t"))
}

fn cmd(statement: Node) -> Node {
    Node::new(Kind::Cmd).child(statement)
}

fn column() -> Node {
    Node::new(Kind::ColumnDefinition)
        .child(id("a"))
        .none()
        .empty_list()
}

#[test]
fn the_five_statements_are_admitted_alone_and_in_a_cmd() {
    let index = Node::new(Kind::CreateIndex).child(id("i")).child(id("t"));
    let body = Node::new(Kind::ColumnsAndConstraints).list([column()]);
    let add = Node::new(Kind::AddColumn).child(column());
    let statements = [
        drop_table(),
        Node::new(Kind::DropIndex).child(id("i")),
        index.none().list([id("a")]).empty_list().none(),
        Node::new(Kind::AlterTable).child(id("t")).child(add),
        Node::new(Kind::CreateTable)
            .child(id("t"))
            .child(body.empty_list().none().none()),
    ];
    for statement in statements {
        let alone = answer(statement.clone()).unwrap();
        assert_eq!(answer(cmd(statement)), Ok(alone + ";".len()));
    }
}

#[test]
fn what_breaks_the_profile_is_told_by_its_record() {
    let view = || Node::new(Kind::DropView).child(id("v"));
    let body = Node::new(Kind::ColumnsAndConstraints).list([Run::new()]);
    let table = Node::new(Kind::CreateTable).child(Run::new());
    assert_eq!(answer(view()), Err((11, 0)));
    assert_eq!(answer(cmd(view())), Err((11, 1)));
    assert_eq!(answer(cmd(drop_table()).flags(EXPLAIN)), Err((11, 0)));
    assert_eq!(answer(column()), Err((11, 0)));
    let run_for_column = table.child(body.empty_list().none().none());
    assert_eq!(answer(run_for_column), Err((11, 4)));
    let (tree, text) = id("a").finish().unwrap();
    assert_eq!(profile(&tree, &text).unwrap_err().reason, Reason::Profile);
}

/// CREATE TABLE AS SELECT; the name of its table stands at this depth, which is even.
fn nested(depth: usize) -> Node {
    let from = |table: Node| Node::new(Kind::FromClause).child(table).empty_list();
    let table = Node::new(Kind::Table).child(Run::new()).none().none();
    let mut inner = from(table);
    for _ in 0..(depth - 8) / 2 {
        inner = from(Node::new(Kind::Sub).child(inner).none());
    }
    let one = Node::new(Kind::OneSelect).none().empty_list().child(inner);
    let one = one.none().none().empty_list();
    let body = Node::new(Kind::SelectBody).child(one).empty_list();
    let select = Node::new(Kind::Select).none().child(body).none().none();
    let body = Node::new(Kind::AsSelect).child(select);
    Node::new(Kind::CreateTable).child(Run::new()).child(body)
}

#[test]
fn nesting_of_24_passes_and_25_is_11() {
    assert!(answer(nested(DEEPEST)).is_ok());
    assert!(answer(cmd(nested(DEEPEST - 2))).is_ok());
    let number = |node: Node| answer(node).map_err(|(number, _)| number);
    assert_eq!(number(cmd(nested(DEEPEST))), Err(11));
    assert_eq!(number(nested(DEEPEST + 2)), Err(11));
}

#[test]
fn what_measure_refuses_comes_first() {
    let check = Node::new(Kind::Check).child(Run::new()).text("a /*");
    let (tree, text) = check.finish().unwrap();
    let told = |refusal: Refusal| (refusal.number, refusal.place);
    let strict = Options::new().strict(true);
    assert_eq!(profile(&tree, &text).map_err(told), Err((11, 0)));
    assert_eq!(
        profile_with(strict, &tree, &text).map_err(told),
        Err((9, 2))
    );
    assert_eq!(profile(&tree, b"\xC3").map_err(told), Err((12, 0)));
    assert_eq!(profile(&tree[1..], &text).map_err(told), Err((1, 0)));
}

#[test]
fn a_refusal_says_what_to_do() {
    let (tree, text) = Node::new(Kind::DropView).child(id("v")).finish().unwrap();
    let told = profile(&tree, &text).unwrap_err().to_string();
    let begin = "refused with 11, place 0: record 0 breaks the field profile: ";
    assert!(told.starts_with(begin), "{told}");
    assert!(told.contains("; send CREATE TABLE"), "{told}");
}

#[test]
fn trees_are_answered_as_stored() {
    let stored = trees("replay_profile");
    assert_eq!(stored.len(), 397);
    for case in &stored {
        let given = profile_with(case.options, &case.tree, &case.text);
        let line = match given {
            Ok(length) => format!("0 {length}"),
            Err(refusal) => format!("{} {}", refusal.number, refusal.place),
        };
        assert_eq!(line, case.expected, "tree {}", hex(&case.tree));
        let measured = measure_with(case.options, &case.tree, &case.text);
        match given {
            Err(refusal) if refusal.number == 11 => assert!(measured.is_ok()),
            _ => assert_eq!(given, measured),
        }
        if let Ok(length) = given {
            let text = render_to_string_with(case.options, &case.tree, &case.text);
            assert_eq!(text.map(|text| text.len()), Ok(length));
        }
    }
}
