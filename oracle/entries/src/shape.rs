//! Classes, shapes and the table of entries, as Rust values.

use crate::reader::{elements, Definitions, Value};
use std::collections::BTreeMap;

/// What may stand in a place.
#[derive(Clone, Debug, PartialEq)]
pub enum Class {
    One(Vec<u16>),
    List(Box<Class>),
    OneOr(Vec<u16>, Box<Class>),
    Small,
}

/// What an entry holds and writes.
#[derive(Clone, Debug, PartialEq)]
pub enum Shape {
    Nothing,
    Token,
    Ident,
    Word(u16),
    Said(String),
    Line(u16),
    When(u16, Box<Shape>),
    Is(u16, Box<Shape>),
    Slot(Class),
    Each(Class),
    Commas(Class),
    Row(Class),
    Lines(Class, u16),
    Tuples(Class),
    Given(Box<Shape>),
    Filled(Box<Shape>),
    Replacing(Box<Shape>, Box<Shape>),
    Decimal,
    Brackets,
    Quoted,
    Rowid,
    Source,
    Later(Box<Shape>, Box<Shape>),
    Then(Box<Shape>, Box<Shape>),
    /// In the SQLite edition with a comma between, where both write something.
    Both(Box<Shape>, Box<Shape>),
}

/// The entries by their kinds.
pub type Table = BTreeMap<u16, Shape>;

/// The entries of the definitions.
pub fn table(definitions: &Definitions) -> Result<Table, String> {
    let mut table = Table::new();
    for entry in elements(&definitions.value("table")?)? {
        let Value::Made(comma, parts) = entry else {
            return Err(format!("not an entry: {entry:?}"));
        };
        let ([kind, shape], ",") = (&parts[..], comma.as_str()) else {
            return Err(format!("not an entry: {entry:?}"));
        };
        let kind = number(kind)?;
        if table.insert(kind, shape_of(shape)?).is_some() {
            return Err(format!("two entries of kind {kind}"));
        }
    }
    Ok(table)
}

/// What may be the root.
pub fn root(definitions: &Definitions) -> Result<Class, String> {
    class_of(&definitions.value("root")?)
}

fn number(value: &Value) -> Result<u16, String> {
    match value {
        Value::Number(number) => u16::try_from(*number).map_err(|error| error.to_string()),
        _ => Err(format!("not a number: {value:?}")),
    }
}

fn kinds(value: &Value) -> Result<Vec<u16>, String> {
    elements(value)?.into_iter().map(number).collect()
}

fn class_of(value: &Value) -> Result<Class, String> {
    let Value::Made(name, parts) = value else {
        return Err(format!("not a class: {value:?}"));
    };
    Ok(match (name.as_str(), &parts[..]) {
        ("one", [ks]) => Class::One(kinds(ks)?),
        ("list", [class]) => Class::List(Box::new(class_of(class)?)),
        ("one_or", [ks, class]) => Class::OneOr(kinds(ks)?, Box::new(class_of(class)?)),
        ("small", []) => Class::Small,
        _ => return Err(format!("not a class: {name}")),
    })
}

fn shape_of(value: &Value) -> Result<Shape, String> {
    let Value::Made(name, parts) = value else {
        return Err(format!("not a shape: {value:?}"));
    };
    let inner = |value| shape_of(value).map(Box::new);
    Ok(match (name.as_str(), &parts[..]) {
        ("nothing", []) => Shape::Nothing,
        ("token", []) => Shape::Token,
        ("ident", []) => Shape::Ident,
        ("word", [token]) => Shape::Word(number(token)?),
        ("said", [Value::Text(text)]) => Shape::Said(text.clone()),
        ("line", [token]) => Shape::Line(number(token)?),
        ("when", [bit, shape]) => Shape::When(number(bit)?, inner(shape)?),
        ("is", [flags, shape]) => Shape::Is(number(flags)?, inner(shape)?),
        ("slot", [class]) => Shape::Slot(class_of(class)?),
        ("each", [class]) => Shape::Each(class_of(class)?),
        ("commas", [class]) => Shape::Commas(class_of(class)?),
        ("row", [class]) => Shape::Row(class_of(class)?),
        ("lines", [class, token]) => Shape::Lines(class_of(class)?, number(token)?),
        ("tuples", [class]) => Shape::Tuples(class_of(class)?),
        ("given", [shape]) => Shape::Given(inner(shape)?),
        ("filled", [shape]) => Shape::Filled(inner(shape)?),
        ("replacing", [yes, no]) => Shape::Replacing(inner(yes)?, inner(no)?),
        ("decimal", []) => Shape::Decimal,
        ("brackets", []) => Shape::Brackets,
        ("quoted", []) => Shape::Quoted,
        ("rowid", []) => Shape::Rowid,
        ("source", []) => Shape::Source,
        ("later", [first, second]) => Shape::Later(inner(first)?, inner(second)?),
        ("both", [first, second]) => Shape::Both(inner(first)?, inner(second)?),
        ("·", [first, second]) => Shape::Then(inner(first)?, inner(second)?),
        _ => return Err(format!("not a shape: {name}")),
    })
}
