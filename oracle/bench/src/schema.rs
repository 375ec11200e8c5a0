//! Tables as an application has them.

use tokens::random::Random;
use turso_parser::ast::*;

/// Least and most columns of a table, besides its key.
const LEAST: usize = 3;
const MOST: usize = 11;

const NAMES: [&str; 16] = [
    "name",
    "email",
    "created_at",
    "updated_at",
    "status",
    "amount",
    "owner_id",
    "title",
    "body",
    "position",
    "is_active",
    "currency",
    "country_code",
    "note",
    "parent_id",
    "external_ref",
];
const TYPES: [&str; 6] = ["INTEGER", "TEXT", "TEXT", "REAL", "BLOB", "VARCHAR"];
const SIZE: &str = "255";

/// So many tables, with keys, references, defaults and constraints.
pub fn schema(tables: usize, seed: u64) -> Vec<Cmd> {
    let mut random = Random::new(seed);
    let table = |at| table_of(&mut random, at);
    (0..tables).map(table).collect()
}

/// The one that is timed alone: eight columns, each kind of constraint once.
pub fn usual_table() -> Cmd {
    let mut columns = vec![key()];
    let constraints = [
        vec![not_null()],
        vec![not_null(), unique()],
        vec![default("0")],
        vec![references("users")],
        vec![],
        vec![not_null(), default("1")],
        vec![],
    ];
    let rows = NAMES.iter().zip(constraints).enumerate();
    columns.extend(rows.map(|(at, (name, constraints))| column(name, TYPES[at % 6], constraints)));
    let unique = vec![unique_together("name", "email")];
    create("accounts", columns, unique, TableOptions::empty())
}

/// A table of columns with a name and a type.
pub fn plain_table(name: &str, columns: &[String], type_name: &str) -> Stmt {
    let plain = |name: &String| column(name, type_name, vec![]);
    let columns = columns.iter().map(plain).collect();
    create_stmt(name, columns, vec![], TableOptions::empty())
}

fn table_of(random: &mut Random, at: usize) -> Cmd {
    let count = random.between(LEAST, MOST);
    let mut columns = vec![key()];
    for name in &NAMES[..count] {
        let constraints = constraints(random);
        columns.push(column(name, random.pick(&TYPES), constraints));
    }
    let together = random
        .one_in(4)
        .then(|| unique_together(NAMES[0], NAMES[1]));
    let options = TableOptions {
        without_rowid_text: random.one_in(16).then(|| "WITHOUT ROWID".to_string()),
        strict_text: random.one_in(16).then(|| "STRICT".to_string()),
    };
    let constraints = together.into_iter().collect();
    create(&format!("table_{at}"), columns, constraints, options)
}

fn constraints(random: &mut Random) -> Vec<NamedColumnConstraint> {
    let mut constraints = vec![];
    if random.one_in(2) {
        constraints.push(not_null());
    }
    match random.below(8) {
        0 => constraints.push(unique()),
        1 | 2 => constraints.push(default("0")),
        3 => constraints.push(references("table_0")),
        _ => {}
    }
    constraints
}

fn create(
    name: &str,
    columns: Vec<ColumnDefinition>,
    constraints: Vec<NamedTableConstraint>,
    options: TableOptions,
) -> Cmd {
    Cmd::Stmt(create_stmt(name, columns, constraints, options))
}

fn create_stmt(
    name: &str,
    columns: Vec<ColumnDefinition>,
    constraints: Vec<NamedTableConstraint>,
    options: TableOptions,
) -> Stmt {
    Stmt::CreateTable {
        temporary: false,
        if_not_exists: false,
        tbl_name: QualifiedName {
            db_name: None,
            name: named(name),
            alias: None,
        },
        body: CreateTableBody::ColumnsAndConstraints {
            columns,
            constraints,
            options,
        },
    }
}

fn named(text: &str) -> Name {
    Name::exact(text.to_string())
}

fn key() -> ColumnDefinition {
    let constraint = ColumnConstraint::PrimaryKey {
        order: None,
        conflict_clause: None,
        auto_increment: false,
    };
    column("id", "INTEGER", vec![unnamed(constraint)])
}

fn column(
    name: &str,
    type_name: &str,
    constraints: Vec<NamedColumnConstraint>,
) -> ColumnDefinition {
    let sized = type_name == "VARCHAR";
    ColumnDefinition {
        col_name: named(name),
        col_type: Some(Type {
            name: type_name.to_string(),
            size: sized.then(|| TypeSize::MaxSize(number(SIZE))),
            array_dimensions: 0,
        }),
        constraints,
    }
}

fn number(digits: &str) -> Box<Expr> {
    Box::new(Expr::Literal(Literal::Numeric(digits.to_string())))
}

fn unnamed(constraint: ColumnConstraint) -> NamedColumnConstraint {
    NamedColumnConstraint {
        name: None,
        constraint,
    }
}

fn not_null() -> NamedColumnConstraint {
    unnamed(ColumnConstraint::NotNull {
        nullable: false,
        conflict_clause: None,
    })
}

fn unique() -> NamedColumnConstraint {
    unnamed(ColumnConstraint::Unique(None))
}

fn default(digits: &str) -> NamedColumnConstraint {
    unnamed(ColumnConstraint::Default(number(digits)))
}

fn references(table: &str) -> NamedColumnConstraint {
    let clause = ForeignKeyClause {
        tbl_name: named(table),
        columns: vec![IndexedColumn {
            col_name: named("id"),
            collation_name: None,
            order: None,
        }],
        args: vec![RefArg::OnDelete(RefAct::Cascade)],
    };
    unnamed(ColumnConstraint::ForeignKey {
        clause,
        defer_clause: None,
    })
}

fn unique_together(first: &str, second: &str) -> NamedTableConstraint {
    let sorted = |name: &str| SortedColumn {
        expr: Box::new(Expr::Id(named(name))),
        order: None,
        nulls: None,
    };
    NamedTableConstraint {
        name: None,
        constraint: TableConstraint::Unique {
            columns: vec![sorted(first), sorted(second)],
            conflict_clause: None,
        },
    }
}
