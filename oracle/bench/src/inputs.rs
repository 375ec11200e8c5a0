//! The inputs: a schema, one table, all statements, the limits, and rows that grow.

use crate::item::{Input, Item};
use crate::schema::{plain_table, schema, usual_table};
use model::encode::Encode;
use model::random::cmd;
use model::record::{MOST_BYTES, MOST_RECORDS};
use tokens::random::Random;
use tokens::token::Token;
use turso_parser::token::TokenType::TK_COMMA;

const TABLES: usize = 200;
const STATEMENTS: usize = 1_000;
const SEED: u64 = 1;

/// Records of a CREATE TABLE besides its columns', and of each column that has a name and a type.
const TABLE_RECORDS: usize = 8;
const COLUMN_RECORDS: usize = 8;
/// The type of each column of a table that grows.
const TYPE: &str = "INTEGER";

/// The four inputs that the goals are stated for.
pub fn usual() -> Vec<Input> {
    vec![
        Input::new("schema of 200 tables", tables()),
        Input::new("one CREATE TABLE", items([boxed(usual_table())])),
        Input::new("mix of all statements", mix()),
        Input::new("one tree at the limits", items([boxed(limits())])),
    ]
}

/// The tables of the schema.
pub fn tables() -> Vec<Item> {
    items(schema(TABLES, SEED).into_iter().map(boxed))
}

/// Random statements, each variant as often as the others, but for those whose tree is refused.
fn mix() -> Vec<Item> {
    let mut random = Random::new(SEED);
    let values = (0..STATEMENTS).map(|_| boxed(cmd(&mut random)));
    values.filter_map(Item::new).collect()
}

/// A table whose tree has as many records and as much text as any may have.
fn limits() -> impl Encode + 'static {
    let columns = (MOST_RECORDS - TABLE_RECORDS) / COLUMN_RECORDS;
    let each = MOST_BYTES / (columns + 1);
    let first = MOST_BYTES - columns * each;
    let names = vec!["c".repeat(each - TYPE.len()); columns];
    plain_table(&"t".repeat(first), &names, TYPE)
}

/// A RUN alone, and CREATE TABLE with ever more columns: so many records.
pub fn growing() -> Vec<Vec<Input>> {
    let runs = [1, 4, 16, 64, 256, 1_024, MOST_RECORDS];
    let tables = [16, 64, 256, 1_024, MOST_RECORDS];
    let run = |records: usize| grown("RUN", boxed(run_of(records)));
    let table = |records: usize| grown("CREATE TABLE", boxed(table_of(records)));
    vec![
        runs.map(run).into_iter().collect(),
        tables.map(table).into_iter().collect(),
    ]
}

fn grown(name: &str, value: Box<dyn Encode>) -> Input {
    let items = items([value]);
    let records = items[0].records();
    Input::new(&format!("{name}, {records} records"), items)
}

/// Names with commas between them.
fn run_of(records: usize) -> Vec<Token> {
    let token = |at: usize| match at % 2 {
        0 => Token::id("column_a"),
        _ => Token::bare(TK_COMMA),
    };
    (0..records - 1).map(token).collect()
}

fn table_of(records: usize) -> impl Encode + 'static {
    let columns = (records - TABLE_RECORDS) / COLUMN_RECORDS;
    let names: Vec<String> = (0..columns).map(|at| format!("column_{at}")).collect();
    plain_table("t", &names, TYPE)
}

fn boxed(value: impl Encode + 'static) -> Box<dyn Encode> {
    Box::new(value)
}

fn items(values: impl IntoIterator<Item = Box<dyn Encode>>) -> Vec<Item> {
    let item = |value| Item::new(value).expect("an admitted tree");
    values.into_iter().map(item).collect()
}
