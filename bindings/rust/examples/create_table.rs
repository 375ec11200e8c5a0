//! Builds and renders a table of meter readings: `cargo run --example create_table`.

use kinyandoma::{id, render_to_string, text, Flag, Kind, Node, Part, Run, Token};
use std::error::Error;

fn main() -> Result<(), Box<dyn Error>> {
    let (tree, text) = Node::new(Kind::Cmd).child(readings()).finish()?;
    println!("{}", render_to_string(&tree, &text)?);
    Ok(())
}

/// The table: columns, constraints, and WITHOUT ROWID.
pub fn readings() -> Node {
    let not_null = || Run::of([Token::TK_NOT, Token::TK_NULL]);
    let zero = Run::of([Token::TK_DEFAULT]).value(Token::TK_FLOAT, "0.0");
    let columns = [
        column("meter", of_type("INTEGER", None), vec![not_null()]),
        column("taken_at", of_type("INTEGER", None), vec![not_null()]),
        column("kwh", of_type("REAL", None), vec![zero]),
        column("note", of_type("VARCHAR", Some("40")), vec![]),
    ];
    let body = Node::new(Kind::ColumnsAndConstraints)
        .list(columns)
        .list([
            constraint(None, key()),
            constraint(Some("no_negative"), check()),
        ])
        .child(text("WITHOUT ROWID"))
        .none();
    Node::new(Kind::CreateTable)
        .flag(Flag::IfNotExists)
        .id("readings")
        .child(body)
}

/// A column with its type and its constraints, each a RUN of tokens.
fn column(name: &str, of_type: Node, constraints: Vec<Run>) -> Node {
    Node::new(Kind::ColumnDefinition)
        .id(name)
        .child(of_type)
        .list(constraints)
}

/// A type with its size, and no dimensions.
fn of_type(name: &str, size: Option<&str>) -> Node {
    let size = size.map(|size| Run::new().value(Token::TK_INTEGER, size));
    Node::new(Kind::TypeName)
        .text(name)
        .child(size)
        .child(Part::Number(0))
}

/// A table constraint, with its name or without.
fn constraint(name: Option<&str>, constraint: Node) -> Node {
    let head = name.map(|name| Run::of([Token::TK_CONSTRAINT]).id(name));
    Node::new(Kind::NamedTableConstraint)
        .child(head)
        .child(constraint)
}

fn key() -> Node {
    Node::new(Kind::PrimaryKey)
        .list([id("meter"), id("taken_at")])
        .none()
}

/// The source is written as it stands; the expression would be, if there were none.
fn check() -> Node {
    let expression = id("kwh").token(Token::TK_GE).value(Token::TK_INTEGER, "0");
    Node::new(Kind::Check)
        .child(expression)
        .text("kwh >= 0 -- no credit")
}
