//! The deepest admitted trees, and the longest rows.

use crate::item::Item;
use model::encode::Encode;
use model::random::select::{all_from, only, plain};
use model::record::MOST_RECORDS;
use tokens::token::Token;
use turso_parser::ast::*;
use turso_parser::token::TokenType::TK_COMMA;

/// A select around a select.
type Around = fn(Select) -> Select;

const AROUND: [(&str, Around); 5] = [
    ("selects in FROM", in_select),
    ("brackets in FROM", in_brackets),
    ("selects in WITH", in_with),
    ("brackets in joins", in_join),
    ("selects in compounds", in_compound),
];

/// What a select may stand in; the second is one record deeper.
const ROOTS: [fn(Select) -> Stmt; 2] = [view, table];

/// Records of a SELECT of one row besides the row's own.
const VALUES_RECORDS: usize = 10;

/// A way goes down by at most so many records at a time, less one: with as many brackets inside, the last ones are used.
const SPARE: usize = 6;

/// Each way as far as it is admitted, in each root; then two rows that fill a tree.
pub fn trees() -> Vec<(&'static str, Vec<Item>)> {
    let deepest = |&(name, around): &(&'static str, Around)| (name, deepest(around));
    let mut trees: Vec<(&str, Vec<Item>)> = AROUND.iter().map(deepest).collect();
    trees.push(("a RUN of 4,095 TOKENs", vec![row_of_tokens()]));
    trees.push(("a LIST of 4,086 RUNs", vec![row_of_runs()]));
    trees
}

/// As often as it is admitted, around a table in none or some brackets.
fn deepest(around: Around) -> Vec<Item> {
    let table = || SelectTable::Table(qualified("t"), None, None);
    let mut items = vec![];
    let mut first = all_from(only(table()));
    for _ in 0..SPARE {
        items.extend(ROOTS.map(|root| filled(root, around, first.clone())));
        first = in_brackets(first);
    }
    items
}

/// The last one before the tree is too deep.
fn filled(root: fn(Select) -> Stmt, around: Around, first: Select) -> Item {
    let made = |select: &Select| Item::new(Box::new(Cmd::Explain(root(select.clone()))));
    let mut value = first;
    let mut item = made(&value).expect("an admitted tree");
    loop {
        value = around(value);
        match made(&value) {
            None => return item,
            Some(deeper) => item = deeper,
        }
    }
}

fn view(select: Select) -> Stmt {
    Stmt::CreateView {
        temporary: true,
        if_not_exists: true,
        view_name: qualified("v"),
        columns: vec![],
        select,
    }
}

fn table(select: Select) -> Stmt {
    Stmt::CreateTable {
        temporary: true,
        if_not_exists: true,
        tbl_name: qualified("t"),
        body: CreateTableBody::AsSelect(select),
    }
}

fn qualified(text: &str) -> QualifiedName {
    QualifiedName {
        db_name: None,
        name: named(text),
        alias: None,
    }
}

fn named(text: &str) -> Name {
    Name::exact(text.to_string())
}

fn in_select(select: Select) -> Select {
    all_from(only(SelectTable::Select(select, None)))
}

fn in_brackets(select: Select) -> Select {
    let mut select = select;
    let from = from_of(&mut select);
    *from = only(SelectTable::Sub(from.clone(), None));
    select
}

fn in_join(select: Select) -> Select {
    let mut select = select;
    let from = from_of(&mut select);
    let joined = JoinedSelectTable {
        operator: JoinOperator::Comma,
        table: Box::new(SelectTable::Sub(from.clone(), None)),
        constraint: None,
    };
    *from = only(SelectTable::Table(qualified("t"), None, None));
    from.joins = vec![joined];
    select
}

fn in_with(select: Select) -> Select {
    let inner = CommonTableExpr {
        tbl_name: named("c"),
        columns: vec![],
        materialized: Materialized::No,
        select,
    };
    let mut select = all_from(only(SelectTable::Table(qualified("c"), None, None)));
    select.with = Some(With {
        recursive: false,
        ctes: vec![inner],
    });
    select
}

fn in_compound(select: Select) -> Select {
    let mut outer = plain(OneSelect::Values(vec![]));
    outer.body.compounds = vec![CompoundSelect {
        operator: CompoundOperator::Union,
        select: in_select(select).body.select,
    }];
    outer
}

/// The last FROM of a select.
fn from_of(select: &mut Select) -> &mut FromClause {
    let last = match select.body.compounds.last_mut() {
        Some(compound) => &mut compound.select,
        None => &mut select.body.select,
    };
    match last {
        OneSelect::Select {
            from: Some(from), ..
        } => from,
        _ => panic!("a select without FROM"),
    }
}

fn row_of_tokens() -> Item {
    let tokens = vec![Token::bare(TK_COMMA); MOST_RECORDS - 1];
    filling(Box::new(tokens))
}

/// Expressions that write nothing.
fn row_of_runs() -> Item {
    let nothing = || Expr::RowId {
        database: None,
        table: TableInternalId::default(),
    };
    let row = (VALUES_RECORDS..MOST_RECORDS).map(|_| Box::new(nothing()));
    let select = plain(OneSelect::Values(vec![row.collect()]));
    filling(Box::new(Stmt::Select(select)))
}

fn filling(value: Box<dyn Encode>) -> Item {
    let item = Item::new(value).expect("an admitted tree");
    assert_eq!(item.records(), MOST_RECORDS);
    item
}
