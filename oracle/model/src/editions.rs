//! What the editions differ in (request viii): random without-rowid texts and operator texts, and trees with many of them.

use crate::check::WITHOUT_ROWID;
use crate::damage::Case;
use crate::encode::Encode;
use crate::grammar::{NONE, OPERATOR, TABLE_BODY, TEXT};
use crate::random::Maker;
use crate::record::Record;
use crate::sources;
use tokens::random::Random;
use turso_parser::ast::{
    Cmd, CreateTableBody, CreateTypeBody, Expr, Name, NamedTableConstraint, QualifiedName, Stmt,
    TableConstraint, TableOptions, TypeOperator,
};

/// White space as document 01 lists it.
pub const WHITE: [char; 25] = [
    '\u{9}', '\u{A}', '\u{B}', '\u{C}', '\u{D}', '\u{20}', '\u{85}', '\u{A0}', '\u{1680}',
    '\u{2000}', '\u{2001}', '\u{2002}', '\u{2003}', '\u{2004}', '\u{2005}', '\u{2006}', '\u{2007}',
    '\u{2008}', '\u{2009}', '\u{200A}', '\u{2028}', '\u{2029}', '\u{202F}', '\u{205F}', '\u{3000}',
];
/// What is none, although it looks so, or stands beside it.
pub const NOT_WHITE: [char; 14] = [
    '\u{0}', '\u{8}', '\u{E}', '\u{1C}', '\u{1F}', '\u{84}', '\u{86}', '\u{9F}', '\u{A1}',
    '\u{180E}', '\u{200B}', '\u{2027}', '\u{3001}', '\u{FEFF}',
];

/// Words that are not WITHOUT, nor ROWID.
const OTHERS: [&str; 14] = [
    "WITHOU",
    "WITHOUTX",
    "WITH",
    "ROWI",
    "ROWIDS",
    "STRICT",
    "a",
    "w\u{131}thout",
    "row\u{130}d",
    "\u{FF37}ITHOUT",
    "WITHOUTROWID",
    "WITHOUT,",
    "\u{200B}",
    "'",
];
/// The second option of a table.
const SECOND: [&str; 6] = ["STRICT", "strict", "", " ", "it's", "\u{B}"];
/// What operator texts are made of, fewer than this of them.
const PIECES: [&str; 9] = ["'", "'", "'", "''", "a", "\"", "`", " ", "\u{20AC}"];
const FEW: usize = 7;
/// Most operators of a type.
const OPERATORS: usize = 3;
/// Which child of an operator clause is its text.
const OPERATOR_TEXT: (u16, usize) = (OPERATOR, 0);

/// The word with each letter in either case, by the bits of a number.
pub fn in_case(word: &str, bits: usize) -> String {
    let letter = |(at, letter): (usize, char)| match bits >> at & 1 {
        0 => letter.to_ascii_uppercase(),
        _ => letter.to_ascii_lowercase(),
    };
    word.chars().enumerate().map(letter).collect()
}

/// A without-rowid text: what SQLite reads half of the time, else other words, fewer or more.
pub fn rowid(random: &mut Random) -> String {
    let bits = random.word() as usize;
    let mut words = vec![in_case("WITHOUT", bits), in_case("ROWID", bits >> 7)];
    match random.below(10) {
        0 => words.truncate(random.below(2)),
        1 => words.push(in_case("ROWID", bits >> 12)),
        2 => words.reverse(),
        3 | 4 => words[random.below(2)] = random.pick(&OTHERS).to_string(),
        _ => {}
    }
    let mut text = white(random, 0);
    for (at, word) in words.iter().enumerate() {
        if at > 0 {
            text += &white(random, 1);
        }
        text += word;
    }
    text + &white(random, 0)
}

/// At least so much white space; mostly no more, and one time in twenty something else among it.
fn white(random: &mut Random, least: usize) -> String {
    let more = if random.one_in(3) { random.below(4) } else { 0 };
    let mut text = String::new();
    for _ in 0..least + more {
        text.push(match random.below(20) {
            0 => random.pick(&NOT_WHITE),
            1..=9 => ' ',
            _ => random.pick(&WHITE),
        });
    }
    text
}

/// The text of an operator, with quotes mostly.
pub fn operator(random: &mut Random) -> String {
    let pieces = random.below(FEW);
    (0..pieces).map(|_| random.pick(&PIECES)).collect()
}

fn maybe(random: &mut Random, draw: fn(&mut Random) -> String) -> Option<String> {
    (!random.one_in(3)).then(|| draw(random))
}

/// The body of a table with these options.
pub fn body_with(without_rowid: Option<String>, second: Option<String>) -> CreateTableBody {
    CreateTableBody::ColumnsAndConstraints {
        columns: vec![],
        constraints: vec![],
        options: TableOptions {
            without_rowid_text: without_rowid,
            strict_text: second,
        },
    }
}

/// CREATE TABLE t with this body.
pub fn table_with(body: CreateTableBody) -> Stmt {
    Stmt::CreateTable {
        temporary: false,
        if_not_exists: false,
        tbl_name: QualifiedName {
            db_name: None,
            name: Name::exact("t".to_string()),
            alias: None,
        },
        body,
    }
}

/// CREATE TYPE t BASE b with these operators.
pub fn type_with(operators: Vec<TypeOperator>) -> CreateTypeBody {
    CreateTypeBody::CustomType {
        params: vec![],
        base: "b'".to_string(),
        encode: None,
        decode: None,
        operators,
        default: None,
    }
}

/// An operator clause with this text.
pub fn operator_with(text: &str, function: Option<&str>) -> TypeOperator {
    TypeOperator {
        op: text.to_string(),
        func_name: function.map(str::to_string),
    }
}

/// A random table, type or operator clause, alone, as a statement or in a Cmd. The without-rowid text of one in two tables is one
/// that SQLite reads.
pub fn value(random: &mut Random) -> Box<dyn Encode> {
    match random.below(7) {
        0 | 1 => Box::new(body(random)),
        2 => Box::new(table_with(body(random))),
        3 => Box::new(Cmd::Stmt(table_with(body(random)))),
        4 => Box::new(operator_clause(random)),
        5 => Box::new(custom_type(random)),
        _ => Box::new(Cmd::Explain(Stmt::CreateType {
            if_not_exists: random.one_in(2),
            type_name: operator(random),
            body: custom_type(random),
        })),
    }
}

/// A random CREATE TABLE.
pub fn table(random: &mut Random) -> Stmt {
    table_with(body(random))
}

/// With a column, a constraint, and a CHECK that may be left open (request vii).
fn body(random: &mut Random) -> CreateTableBody {
    let source = maybe(random, sources::any);
    let without_rowid = maybe(random, rowid);
    let second = maybe(random, |random| random.pick(&SECOND).to_string());
    let mut body = body_with(without_rowid, second);
    let mut maker = Maker::new(random);
    if let CreateTableBody::ColumnsAndConstraints {
        columns,
        constraints,
        ..
    } = &mut body
    {
        columns.push(maker.column());
        constraints.push(maker.named_constraint());
        constraints.extend(source.map(check));
    }
    body
}

/// A CHECK with this source.
pub fn check(source: String) -> NamedTableConstraint {
    NamedTableConstraint {
        name: None,
        constraint: TableConstraint::Check {
            expr: Box::new(Expr::Id(Name::exact("x".to_string()))),
            source: Some(source),
        },
    }
}

fn custom_type(random: &mut Random) -> CreateTypeBody {
    let count = random.between(0, OPERATORS);
    type_with((0..count).map(|_| operator_clause(random)).collect())
}

fn operator_clause(random: &mut Random) -> TypeOperator {
    TypeOperator {
        op: operator(random),
        func_name: maybe(random, operator),
    }
}

/// Each record that is such a child of such a kind, as far as the numbers of children tell which stands below which.
fn children(tree: &[u8], looked_for: (u16, usize)) -> Vec<usize> {
    // Of each record above the next one: its kind, and its children in all and so far.
    let mut above: Vec<(u16, usize, usize)> = vec![];
    let mut found = vec![];
    let records = (0..).map_while(|index| Record::read(tree, index));
    for (index, record) in records.enumerate() {
        while above.last().is_some_and(|(_, all, so_far)| all == so_far) {
            above.pop();
        }
        if let Some((kind, _, so_far)) = above.last_mut() {
            if (*kind, *so_far) == looked_for {
                found.push(index);
            }
            *so_far += 1;
        }
        above.push((record.kind, usize::from(record.children), 0));
    }
    found
}

/// The places of without-rowid texts, whatever stands there.
pub fn rowids(tree: &[u8]) -> Vec<usize> {
    children(tree, WITHOUT_ROWID)
}

/// The places of operator texts, whatever stands there.
pub fn operators(tree: &[u8]) -> Vec<usize> {
    children(tree, OPERATOR_TEXT)
}

/// The places of second options, whatever stands there.
pub fn seconds(tree: &[u8]) -> Vec<usize> {
    let (kind, first) = (TABLE_BODY, WITHOUT_ROWID.1);
    children(tree, (kind, first + 1))
}

/// Gives each table that has a without-rowid text another one, some of those that have none one, and each operator
/// another text.
pub fn exchange(random: &mut Random, case: &mut Case) {
    for place in rowids(&case.tree) {
        let kind = Record::read(&case.tree, place).map_or(NONE, |record| record.kind);
        if kind == TEXT || kind == NONE && random.one_in(2) {
            let text = rowid(random);
            put(random, case, place, &text);
        }
    }
    for place in operators(&case.tree) {
        let kind = Record::read(&case.tree, place).map_or(NONE, |record| record.kind);
        if kind == TEXT {
            let text = operator(random);
            put(random, case, place, &text);
        }
    }
}

/// Lets the record be a TEXT that names this text; an empty one with bytes 8 to 15 zero half of the time.
pub fn put(random: &mut Random, case: &mut Case, place: usize, text: &str) {
    sources::put(case, place, text);
    if text.is_empty() && random.one_in(2) {
        case.edit(place, |record| record.start = 0);
    }
}

/// Where the editions write something else for an admitted tree: the quotes in operator texts, and the tables with both
/// options. Each adds a byte in the SQLite edition.
pub fn bytes_more(case: &Case) -> usize {
    let record = |place: usize| Record::read(&case.tree, place);
    let is_text = |place: usize| record(place).is_some_and(|record| record.kind == TEXT);
    let quotes = |place: usize| {
        let record = record(place).expect("an admitted tree");
        let part = &case.text[record.start as usize..][..record.length as usize];
        part.iter().filter(|&&byte| byte == b'\'').count()
    };
    let both = rowids(&case.tree).into_iter().zip(seconds(&case.tree));
    let both = both.filter(|&(first, second)| is_text(first) && is_text(second));
    let quotes = operators(&case.tree).into_iter().map(quotes);
    both.count() + quotes.sum::<usize>()
}
