//! Trees in the SQLite edition, with what the crate writes for the rewritten value, or the model's refusal (request viii).

use crate::editions::{body_with, operator_with, table_with, type_with};
use crate::encode::Encode;
use crate::fixed::editions::{OTHER, READ};
use crate::options::{Edition, MEANT, SQLITE};
use crate::samples::{of_in, Judged};
use turso_parser::ast::{
    Cmd, CreateTableBody, Expr, Name, NamedTableConstraint, Stmt, TableConstraint,
};

/// Bits that mean nothing.
const OTHERS: [u32; 3] = [0, 1 << 31, !MEANT];

pub fn judged() -> Vec<Judged> {
    let mut judged = Vec::new();
    judged.extend(rowids());
    judged.extend(options());
    judged.extend(operators());
    judged.extend(statements());
    judged.extend(checks());
    judged
}

fn of(value: &dyn Encode, options: u32) -> Judged {
    of_in(Edition::of(options), value).judged_with(options)
}

fn body(first: Option<&str>, second: Option<&str>) -> CreateTableBody {
    let owned = |text: Option<&str>| text.map(str::to_string);
    body_with(owned(first), owned(second))
}

/// Texts that are read, with another option and without; some of those that are not.
fn rowids() -> Vec<Judged> {
    let read = READ.iter().flat_map(|text| {
        let alone = of(&body(Some(text), None), SQLITE);
        [alone, of(&body(Some(text), Some("STRICT")), SQLITE)]
    });
    let other = OTHER.iter().step_by(3);
    let other = other.map(|text| of(&body(Some(text), Some("STRICT")), SQLITE));
    read.chain(other).collect()
}

/// Each option absent, empty and there, with bits that mean nothing; the same in the crate's edition where no other bit asks
/// for SQLite's.
fn options() -> Vec<Judged> {
    let mut judged = Vec::new();
    for first in [None, Some("WITHOUT ROWID")] {
        for second in [
            None,
            Some(""),
            Some(" "),
            Some("STRICT"),
            Some("\u{B}"),
            Some("it's"),
        ] {
            judged.push(of(&body(first, second), SQLITE));
        }
    }
    for others in OTHERS {
        let both = body(Some("without rowid"), Some("strict"));
        judged.push(of(&both, SQLITE | others));
        judged.push(of(&both, others));
    }
    judged
}

/// Quotes at every place of a text, alone, with a function that has them too, and in a type.
fn operators() -> Vec<Judged> {
    let texts = [
        "",
        "+",
        "'",
        "''",
        "'''",
        "it's",
        "'a",
        "a'",
        "'a'",
        "\"",
        "`'`",
        "\u{20AC}'",
        " ' ",
    ];
    let mut judged = Vec::new();
    for text in texts {
        judged.push(of(&operator_with(text, None), SQLITE));
        judged.push(of(&operator_with(text, Some("f'")), SQLITE));
    }
    let two = || vec![operator_with("'", Some("'")), operator_with("+", None)];
    judged.push(of(&type_with(two()), SQLITE));
    judged.push(of(&type_with(two()), 0));
    judged.push(of(&type_with(vec![]), SQLITE));
    judged
}

/// Whole statements, in a Cmd and not.
fn statements() -> Vec<Judged> {
    let table = || table_with(body(Some("without\u{A0}rowid"), Some("strict")));
    let create_type = || Stmt::CreateType {
        if_not_exists: true,
        type_name: "it's".to_string(),
        body: type_with(vec![operator_with("it's", None)]),
    };
    let drop = Stmt::DropType {
        if_exists: true,
        type_name: "it's".to_string(),
    };
    vec![
        of(&table(), SQLITE),
        of(&Cmd::Stmt(table()), SQLITE),
        of(&Cmd::Explain(table()), MEANT),
        of(&Cmd::Stmt(create_type()), SQLITE),
        of(&Cmd::Stmt(create_type()), 0),
        of(&Cmd::Stmt(drop), SQLITE),
    ]
}

/// A CHECK that is left open, or not, in a table that SQLite reads, or not, with both bits.
fn checks() -> Vec<Judged> {
    let mut judged = Vec::new();
    for (source, rowid) in [
        ("a--b", "without rowid"),
        ("a/*", "without rowid"),
        ("a--b", "rowid"),
        ("a/*", "rowid"),
    ] {
        let mut body = body(Some(rowid), Some("strict"));
        if let CreateTableBody::ColumnsAndConstraints { constraints, .. } = &mut body {
            constraints.push(NamedTableConstraint {
                name: None,
                constraint: TableConstraint::Check {
                    expr: Box::new(Expr::Id(Name::exact("x".to_string()))),
                    source: Some(source.to_string()),
                },
            });
        }
        judged.push(of(&table_with(body.clone()), MEANT));
        judged.push(of(&table_with(body), SQLITE));
    }
    judged
}
