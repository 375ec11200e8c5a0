//! Tables that SQLite should take, as values of the crate's own types.

use model::editions::{in_case, WHITE};
use tokens::random::Random;
use turso_parser::ast::*;

/// Types that a STRICT table may have, and others.
const STRICT_TYPES: [&str; 6] = ["INT", "INTEGER", "REAL", "TEXT", "BLOB", "ANY"];
const TYPES: [&str; 6] = [
    "INTEGER",
    "TEXT",
    "VARCHAR",
    "DOUBLE PRECISION",
    "timestamp",
    "x y z",
];
const DEFAULTS: [&str; 7] = ["0", "1.5", "'it''s'", "''", "X'00'", "1e3", "'--'"];
/// What a CHECK of a column c may say.
const SOURCES: [&str; 12] = [
    "c IS NOT NULL",
    "c >= 0",
    "c <> 'it''s'",
    "c >= 0 -- no credit",
    "-- first\nc < 9",
    "c /* not zero */ <> 0",
    "length (c) < 40 AND c NOT LIKE '%--%'",
    "c IN (1, 2, 'a')",
    "c <> \"c\" OR `c` = [c]",
    "typeof(c) = 'text'",
    "(c) BETWEEN 1 AND 2",
    "c <> '/*'",
];
const MOST: usize = 5;

/// A CREATE TABLE in a Cmd.
pub struct Table {
    pub number: usize,
    /// As SQLite stores it, without quotes.
    pub name: String,
    /// Whether it is WITHOUT ROWID, and whether it is STRICT.
    pub options: (bool, bool),
    pub cmd: Cmd,
}

impl Table {
    /// The words of the statement up to its name, which is the last word before the bracket.
    pub fn before_name(&self) -> String {
        let Cmd::Stmt(Stmt::CreateTable {
            temporary,
            if_not_exists,
            tbl_name,
            ..
        }) = &self.cmd
        else {
            unreachable!("a CREATE TABLE");
        };
        let temporary = if *temporary { "TEMP " } else { "" };
        let exists = if *if_not_exists { "IF NOT EXISTS " } else { "" };
        let schema = tbl_name.db_name.as_ref();
        let schema = schema.map_or(String::new(), |name| format!("{}.", name.as_str()));
        format!("CREATE {temporary}TABLE {exists}{schema}")
    }
}

/// The table with this number, which is in its name.
pub fn made(random: &mut Random, number: usize) -> Table {
    let options = (random.one_in(2), random.one_in(2));
    let name = random.pick(&["t", "readings of ", "select", "\u{E9}", "it's ", "T_"]);
    let name = format!("{name}{number}");
    let temporary = random.one_in(8);
    let db_name = (!temporary && random.one_in(6)).then(|| exact("main"));
    let stmt = Stmt::CreateTable {
        temporary,
        if_not_exists: random.one_in(3),
        tbl_name: QualifiedName {
            db_name,
            name: exact(&name),
            alias: None,
        },
        body: body(random, options),
    };
    Table {
        number,
        name,
        options,
        cmd: Cmd::Stmt(stmt),
    }
}

fn exact(text: &str) -> Name {
    Name::exact(text.to_string())
}

fn id(text: &str) -> Box<Expr> {
    Box::new(Expr::Id(exact(text)))
}

fn number(text: &str) -> Box<Expr> {
    Box::new(Expr::Literal(Literal::Numeric(text.to_string())))
}

/// Columns c, c1, c2 and so on; a primary key where SQLite wants one.
fn body(random: &mut Random, options: (bool, bool)) -> CreateTableBody {
    let (rowid, strict) = options;
    let columns = random.between(1, MOST);
    let names: Vec<String> = (0..columns)
        .map(|at| match at {
            0 => "c".to_string(),
            _ => format!("c{at}"),
        })
        .collect();
    let keyed = rowid || random.one_in(2);
    let in_column = keyed && random.one_in(2);
    let columns = names.iter().enumerate().map(|(at, name)| {
        let key = in_column && at == 0;
        column(random, name, strict, key)
    });
    let columns = columns.collect();
    let mut constraints = vec![];
    if keyed && !in_column {
        constraints.push(TableConstraint::PrimaryKey {
            columns: some_of(random, &names),
            auto_increment: false,
            conflict_clause: None,
        });
    }
    for _ in 0..random.below(4) {
        constraints.push(constraint(random, &names));
    }
    let constraints = constraints.into_iter().enumerate();
    let constraints = constraints.map(|(at, constraint)| NamedTableConstraint {
        name: random.one_in(3).then(|| exact(&format!("rule{at}"))),
        constraint,
    });
    let constraints = constraints.collect();
    CreateTableBody::ColumnsAndConstraints {
        columns,
        constraints,
        options: TableOptions {
            without_rowid_text: rowid.then(|| without_rowid(random)),
            strict_text: strict.then(|| in_case("STRICT", random.word() as usize)),
        },
    }
}

/// In any case, with any white space: only the second word is written as it is.
fn without_rowid(random: &mut Random) -> String {
    let bits = random.word() as usize;
    let (first, second) = (in_case("WITHOUT", bits), in_case("ROWID", bits >> 7));
    let white = random.pick(&WHITE);
    format!("{first}{white}{second}")
}

fn column(random: &mut Random, name: &str, strict: bool, key: bool) -> ColumnDefinition {
    let mut constraints = vec![];
    if key {
        constraints.push(ColumnConstraint::PrimaryKey {
            order: None,
            conflict_clause: None,
            auto_increment: false,
        });
    }
    for _ in 0..random.below(3) {
        constraints.push(match random.below(5) {
            0 => ColumnConstraint::NotNull {
                nullable: false,
                conflict_clause: None,
            },
            1 => ColumnConstraint::Default(default(random)),
            2 => ColumnConstraint::Check {
                expr: id(name),
                source: None,
            },
            3 => ColumnConstraint::Collate {
                collation_name: exact("NOCASE"),
            },
            _ => ColumnConstraint::Unique(None),
        });
    }
    let constraints = constraints.into_iter();
    ColumnDefinition {
        col_name: exact(name),
        col_type: type_of(random, strict),
        constraints: constraints
            .map(|constraint| NamedColumnConstraint {
                name: None,
                constraint,
            })
            .collect(),
    }
}

fn default(random: &mut Random) -> Box<Expr> {
    number(random.pick(&DEFAULTS))
}

fn type_of(random: &mut Random, strict: bool) -> Option<Type> {
    if strict {
        return Some(named(random.pick(&STRICT_TYPES), None));
    }
    let size = match random.below(4) {
        0 => Some(TypeSize::MaxSize(number("40"))),
        1 => Some(TypeSize::TypeSize(number("10"), number("2"))),
        _ => None,
    };
    (!random.one_in(4)).then(|| named(random.pick(&TYPES), size))
}

fn named(name: &str, size: Option<TypeSize>) -> Type {
    Type {
        name: name.to_string(),
        size,
        array_dimensions: 0,
    }
}

/// The first columns, at least one.
fn some_of(random: &mut Random, names: &[String]) -> Vec<SortedColumn> {
    let count = random.between(1, names.len());
    let sorted = |name: &String| SortedColumn {
        expr: id(name),
        order: None,
        nulls: None,
    };
    names[..count].iter().map(sorted).collect()
}

fn constraint(random: &mut Random, names: &[String]) -> TableConstraint {
    match random.below(4) {
        0 => TableConstraint::Unique {
            columns: some_of(random, names),
            conflict_clause: None,
        },
        1 => {
            let column = |name: &str| IndexedColumn {
                col_name: exact(name),
                collation_name: None,
                order: None,
            };
            TableConstraint::ForeignKey {
                columns: vec![column("c")],
                clause: ForeignKeyClause {
                    tbl_name: exact("meters"),
                    columns: vec![column("number")],
                    args: vec![RefArg::OnDelete(RefAct::Cascade)],
                },
                defer_clause: None,
            }
        }
        _ => TableConstraint::Check {
            expr: id("c"),
            source: (!random.one_in(4)).then(|| random.pick(&SOURCES).to_string()),
        },
    }
}
