//! The smallest inputs of docs/DIFFERENCES.md: what the crate writes for them, and what is refused.

use model::encode::Encode;
use model::options::{Edition, SQLITE, STRICT};
use model::random::select::{only, plain};
use model::samples::{of, of_in, of_list};
use tokens::token::Token;
use turso_parser::ast::*;
use turso_parser::token::TokenType::TK_COMMA;

const MOST_DIMENSIONS: u32 = 255;
const MOST_BYTES: usize = 65_536;
const MOST_TOKENS: usize = 4_095;
/// Two records each, and four in the table inside them.
const MOST_BRACKETS: usize = 30;

fn answer(value: &dyn Encode) -> Result<String, (u32, u32)> {
    of(value).judged().expected
}

fn written(value: &dyn Encode) -> String {
    answer(value).expect("an admitted tree")
}

fn name(text: &str) -> QualifiedName {
    QualifiedName {
        db_name: None,
        name: Name::exact(text.to_string()),
        alias: None,
    }
}

fn table(constraints: Vec<NamedTableConstraint>, options: TableOptions) -> CreateTableBody {
    CreateTableBody::ColumnsAndConstraints {
        columns: vec![],
        constraints,
        options,
    }
}

fn options(without_rowid: &str, strict: Option<&str>) -> CreateTableBody {
    let options = TableOptions {
        without_rowid_text: Some(without_rowid.to_string()),
        strict_text: strict.map(str::to_string),
    };
    table(vec![], options)
}

fn drop_type(type_name: String) -> Stmt {
    Stmt::DropType {
        if_exists: false,
        type_name,
    }
}

#[test]
fn what_the_crate_writes_and_sqlite_does_not_read() {
    let operator = TypeOperator {
        op: "'".to_string(),
        func_name: None,
    };
    assert_eq!(written(&operator), "OPERATOR '''");
    let both = options("WITHOUT ROWID", Some("STRICT"));
    assert_eq!(written(&both), "() WITHOUT ROWID STRICT");
    assert_eq!(written(&options("a b", None)), "() WITHOUT b");
    assert_eq!(written(&options("a", None)), "()");
    let values = |rows| plain(OneSelect::Values(rows));
    assert_eq!(written(&values(vec![])), "");
    assert_eq!(written(&values(vec![vec![]])), "VALUES ()");
    let unique = NamedTableConstraint {
        name: None,
        constraint: TableConstraint::Unique {
            columns: vec![],
            conflict_clause: None,
        },
    };
    let constrained = table(vec![unique], TableOptions::empty());
    assert_eq!(written(&constrained), "(, UNIQUE ())");
    let with = With {
        recursive: false,
        ctes: vec![],
    };
    assert_eq!(written(&with), "WITH");
}

#[test]
fn what_sqlite_reads() {
    let answer = |value: &dyn Encode| of_in(Edition::Sqlite, value).judged_with(SQLITE).expected;
    let written = |value: &dyn Encode| answer(value).expect("an admitted tree");
    let operator = TypeOperator {
        op: "'".to_string(),
        func_name: None,
    };
    assert_eq!(written(&operator), "OPERATOR ''''");
    let both = options("WITHOUT ROWID", Some("STRICT"));
    assert_eq!(written(&both), "() WITHOUT ROWID, STRICT");
    assert_eq!(written(&options("without rowid", None)), "() WITHOUT rowid");
    for other in ["a b", "a", "", "WITHOUT ROWID x"] {
        assert_eq!(answer(&options(other, None)), Err((10, 3)));
    }
}

#[test]
fn what_the_crate_cannot_write() {
    let run = || Box::new(Vec::<Token>::new()) as Box<dyn Encode>;
    let list = of_list(&[run(), run()]).judged();
    assert_eq!(list.expected, Ok(",".to_string()));
}

#[test]
fn what_the_crate_writes_and_is_refused() {
    let commas = |count| vec![Token::bare(TK_COMMA); count];
    assert_eq!(written(&commas(MOST_TOKENS)).len(), MOST_TOKENS);
    assert_eq!(answer(&commas(MOST_TOKENS + 1)), Err((1, 0)));
    let named = |length| answer(&drop_type("x".repeat(length)));
    assert!(named(MOST_BYTES).is_ok());
    assert_eq!(named(MOST_BYTES + 1), Err((2, MOST_BYTES as u32)));
    let dimensions = |array_dimensions| Type {
        name: String::new(),
        size: None,
        array_dimensions,
    };
    assert!(answer(&dimensions(MOST_DIMENSIONS)).is_ok());
    assert_eq!(answer(&dimensions(MOST_DIMENSIONS + 1)), Err((4, 3)));
    let table = || only(SelectTable::Table(name("t"), None, None));
    let sub = |from| only(SelectTable::Sub(from, None));
    let brackets = |times| (0..times).fold(table(), |from, _| sub(from));
    assert!(answer(&brackets(MOST_BRACKETS)).is_ok());
    assert_eq!(answer(&brackets(MOST_BRACKETS + 1)), Err((6, 64)));
    let check = TableConstraint::Check {
        expr: Box::new(Expr::Id(Name::exact("x".to_string()))),
        source: Some("/*".to_string()),
    };
    assert_eq!(written(&check), "CHECK (/*)");
    assert_eq!(of(&check).judged_with(STRICT).expected, Err((9, 3)));
}
