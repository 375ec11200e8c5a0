//! Values by hand: the documents' cases and the corners of sections 4 and 6.

use crate::editions::{NOT_WHITE, WHITE};
use crate::encode::Encode;
use crate::fixed::{drop_type, of as case_of};
use crate::grammar::{RUN, TEXT, TOKEN};
use crate::random::select::{all_from, only, plain};
use crate::record::{Record, MOST_RECORDS, SIZE};
use crate::samples::{of, of_list, with_runs, Sample};
use tokens::cases;
use tokens::judge::text_of;
use tokens::token::{known_numbers, Token};
use turso_parser::ast::*;
use turso_parser::token::TokenType::{TK_COMMA, TK_IGNORE, TK_REPLACE};

/// All of them.
pub fn samples() -> Vec<Sample> {
    let mut samples = vec![example()];
    samples.extend(document_streams());
    samples.extend(each_token());
    samples.extend(commands());
    samples.extend(options());
    samples.extend(checks());
    samples.extend(operators());
    samples.extend(values());
    samples.extend(inserts());
    samples.extend(sequences());
    samples.extend(types());
    samples.extend(parts());
    samples.extend(lists());
    samples.extend(deep());
    samples
}

fn name(text: &str) -> Name {
    Name::exact(text.to_string())
}

fn qualified(text: &str) -> QualifiedName {
    QualifiedName {
        db_name: None,
        name: name(text),
        alias: None,
    }
}

fn id(text: &str) -> Box<Expr> {
    Box::new(Expr::Id(name(text)))
}

fn drop_type_named(text: &str) -> Stmt {
    Stmt::DropType {
        if_exists: true,
        type_name: text.to_string(),
    }
}

/// Section 6.
fn example() -> Sample {
    let sample = of(&Cmd::Stmt(drop_type_named("geo")));
    assert_eq!(sample.pair.0, drop_type(b"geo").tree);
    assert_eq!(sample.text, "DROP TYPE IF EXISTS geo;");
    sample
}

/// S1 to S12 of section 6, as RUNs and in a LIST.
fn document_streams() -> Vec<Sample> {
    const LISTED: usize = 12;
    let streams: Vec<Vec<Token>> = cases::all().into_iter().take(LISTED).collect();
    let mut samples: Vec<Sample> = streams.iter().map(|tokens| of(tokens)).collect();
    let boxed = |tokens: Vec<Token>| Box::new(tokens) as Box<dyn Encode>;
    samples.push(of_list(&streams.into_iter().map(boxed).collect::<Vec<_>>()));
    samples
}

/// Every known token, with no value, an empty one and a full one.
fn each_token() -> Vec<Sample> {
    const TOGETHER: usize = 30;
    let mut samples = vec![];
    for value in [None, Some(""), Some("v")] {
        let token = |&number: &u16| Token {
            number,
            value: value.map(str::to_string),
        };
        let tokens: Vec<Token> = known_numbers().iter().map(token).collect();
        let runs = tokens.chunks(TOGETHER);
        samples.extend(runs.map(|run| of(&run.to_vec())));
    }
    samples
}

/// Cmd's four flags over some statements, with a RUN for the statement too.
fn commands() -> Vec<Sample> {
    let begin = Stmt::Begin {
        typ: Some(TransactionType::Immediate),
        name: Some(name("t")),
    };
    let nothing = Stmt::Select(plain(OneSelect::Values(vec![])));
    let mut samples = vec![];
    for stmt in [drop_type_named(""), drop_type_named("t"), begin, nothing] {
        let plan = |format| Cmd::ExplainQueryPlan {
            stmt: stmt.clone(),
            format,
        };
        let four = [
            Cmd::Stmt(stmt.clone()),
            Cmd::Explain(stmt.clone()),
            plan(EqpFormat::Text),
            plan(EqpFormat::Json),
        ];
        samples.extend(four.iter().map(|cmd| of(cmd)));
        samples.extend(four.iter().map(|cmd| with_runs(cmd, RUN_AT_ONCE)));
    }
    let in_place = |sample: &Sample| Record::read(&sample.pair.0, 1).is_some_and(|r| r.kind == RUN);
    assert!(samples.iter().filter(|sample| in_place(sample)).count() == samples.len() / 2);
    samples
}

/// A seed whose first draw is a RUN.
const RUN_AT_ONCE: u64 = 3;

fn table(without_rowid: Option<&str>, strict: Option<&str>) -> CreateTableBody {
    CreateTableBody::ColumnsAndConstraints {
        columns: vec![],
        constraints: vec![],
        options: TableOptions {
            without_rowid_text: without_rowid.map(str::to_string),
            strict_text: strict.map(str::to_string),
        },
    }
}

/// Without-rowid texts of no, one, two and three parts, and both options.
fn options() -> Vec<Sample> {
    let between = |c: &char| format!("WITHOUT{c}ROWID");
    let mut texts: Vec<String> = WHITE.iter().chain(&NOT_WHITE).map(between).collect();
    let all: String = WHITE.iter().collect();
    texts.extend([
        all.clone(),
        format!("{all}a{all}b{all}"),
        format!("a{all}b{all}c"),
    ]);
    let listed = [
        "",
        "WITHOUT",
        "without rowid",
        "a b",
        "WITHOUT  ROWID",
        "a b c",
        "a\u{B}b\u{A0}c",
    ];
    texts.extend(listed.map(str::to_string));
    let mut samples: Vec<Sample> = texts
        .iter()
        .map(|text| of(&table(Some(text), None)))
        .collect();
    for strict in [None, Some(""), Some("STRICT"), Some(" "), Some("\u{B}")] {
        for without_rowid in [
            None,
            Some(""),
            Some("WITHOUT ROWID"),
            Some("a"),
            Some("a b\u{B}"),
        ] {
            samples.push(of(&table(without_rowid, strict)));
        }
    }
    samples
}

/// Sources of a CHECK, with and without `--`.
const SOURCES: [&str; 25] = [
    "",
    " ",
    "\n",
    "a",
    "a--b",
    "--",
    "---",
    "-",
    "- -",
    "a-",
    "-\n-",
    "a -",
    "'--'",
    "'a--b'",
    "a = 'x -- y'",
    "\"--\"",
    "`--`",
    "[--]",
    "/*--*/",
    "a--\n",
    "--\u{20AC}",
    "\u{20AC}--",
    "-\u{AD}-",
    "\u{2013}-",
    "\u{B}",
];

/// The source of a CHECK: absent, empty, with and without `--`.
fn checks() -> Vec<Sample> {
    let sources = SOURCES.into_iter().map(Some).chain([None]);
    let check = |source: Option<&str>, expr: Box<Expr>| TableConstraint::Check {
        expr,
        source: source.map(str::to_string),
    };
    let mut samples = vec![];
    for source in sources {
        samples.push(of(&check(source, id("x"))));
    }
    samples.push(of(&check(None, id("x--y"))));
    samples.push(of(&check(Some(""), id("x--y"))));
    samples.push(of(&NamedTableConstraint {
        name: Some(name("c")),
        constraint: check(Some("a--b"), id("x")),
    }));
    samples
}

/// Operator texts with quotes in them, alone and in a type with a default.
fn operators() -> Vec<Sample> {
    let mut samples = vec![];
    for text in [
        "+", "", "'", "''", "'''", "it's", "\"", " ", "\n", "--", "\u{20AC}",
    ] {
        for func_name in [None, Some(""), Some("f")] {
            samples.push(of(&TypeOperator {
                op: text.to_string(),
                func_name: func_name.map(str::to_string),
            }));
        }
        samples.push(of(&custom_type(text)));
    }
    samples
}

fn custom_type(text: &str) -> CreateTypeBody {
    let operator = TypeOperator {
        op: text.to_string(),
        func_name: None,
    };
    CreateTypeBody::CustomType {
        params: vec![],
        base: text.to_string(),
        encode: None,
        decode: None,
        operators: vec![operator.clone(), operator],
        default: Some(id(text)),
    }
}

/// No rows, empty rows, rows of one and of two.
fn values() -> Vec<Sample> {
    let one = || vec![id("a")];
    let two = || vec![id("a"), id("b")];
    let rows = [
        vec![],
        vec![vec![]],
        vec![vec![], vec![]],
        vec![one()],
        vec![two(), one()],
        vec![one(), vec![], two()],
    ];
    let selects = rows.map(|rows| plain(OneSelect::Values(rows)));
    let alone = selects.iter().map(|select| of(&select.body.select));
    let stmts = selects
        .iter()
        .map(|select| of(&Stmt::Select(select.clone())));
    alone.chain(stmts).collect()
}

fn insert(or_conflict: Option<ResolveType>, with: Option<With>) -> Stmt {
    Stmt::Insert {
        with,
        or_conflict,
        tbl_name: qualified("t"),
        columns: vec![],
        body: InsertBody::DefaultValues,
        returning: vec![],
    }
}

/// Each conflict, 119 among them, and a RUN of the word REPLACE.
fn inserts() -> Vec<Sample> {
    let conflicts = [
        ResolveType::Rollback,
        ResolveType::Abort,
        ResolveType::Fail,
        ResolveType::Ignore,
        ResolveType::Replace,
    ];
    let with = With {
        recursive: false,
        ctes: vec![],
    };
    let mut samples = vec![
        of(&insert(None, None)),
        of(&insert(None, Some(with.clone()))),
    ];
    for conflict in conflicts {
        samples.push(of(&insert(Some(conflict), None)));
        samples.push(of(&insert(Some(conflict), Some(with.clone()))));
    }
    samples.push(replace_as_a_run());
    samples
}

/// OR IGNORE with REPLACE for the last word, in the tree and in what the crate writes.
fn replace_as_a_run() -> Sample {
    let mut sample = of(&insert(Some(ResolveType::Ignore), None));
    let ignore = Record::flagged(TOKEN, TK_IGNORE as u16, 0).bytes();
    let replace = Record::flagged(TOKEN, TK_REPLACE as u16, 0);
    let mut records = sample.pair.0.chunks(SIZE);
    let index = records
        .position(|record| record == ignore)
        .expect("one IGNORE");
    replace.write(&mut sample.pair.0, index);
    let mut tokens = sample.tokens.iter_mut();
    let word = tokens
        .find(|token| token.number == TK_IGNORE as u16)
        .expect("one IGNORE");
    word.number = TK_REPLACE as u16;
    sample.text = text_of(&sample.tokens);
    sample
}

/// The numbers of a sequence, each alone and all together.
fn sequences() -> Vec<Sample> {
    const SLOTS: usize = 4;
    let numbers = [i64::MIN, -10, -1, 0, 9, 10, i64::MAX];
    let mut samples = vec![];
    for number in numbers {
        let alone = |slot: usize| [0, 1, 2, 3].map(|at| (at == slot).then_some(number));
        samples.extend((0..SLOTS).map(|slot| of(&sequence(alone(slot), false))));
        samples.push(of(&sequence([Some(number); SLOTS], true)));
    }
    samples
}

fn sequence([start, increment, min_value, max_value]: [Option<i64>; 4], cycle: bool) -> Stmt {
    Stmt::CreateSequence {
        if_not_exists: !cycle,
        seq_name: qualified("s"),
        start,
        increment,
        min_value,
        max_value,
        cycle,
    }
}

/// Dimensions at their edges, with and without a size, and empty names.
fn types() -> Vec<Sample> {
    let mut samples = vec![];
    for array_dimensions in [0, 1, 2, 255] {
        for size in [None, Some(TypeSize::MaxSize(id("n")))] {
            samples.extend(["", "INT"].map(|text| {
                of(&Type {
                    name: text.to_string(),
                    size: size.clone(),
                    array_dimensions,
                })
            }));
        }
    }
    samples
}

/// Parts anywhere in the text: one that is shared, one of no bytes at the end, one with a wide character.
fn parts() -> Vec<Sample> {
    let text = "ge\u{20AC}o";
    let places = [
        (0, 0),
        (0, 2),
        (1, 1),
        (1, 4),
        (2, 3),
        (5, 1),
        (5, 0),
        (6, 0),
        (0, 6),
    ];
    let named = |(start, length): (usize, usize)| {
        let mut sample = of(&Cmd::Stmt(drop_type_named(&text[start..start + length])));
        let part = Record::part(TEXT, 0, start as u32, length as u32);
        part.write(&mut sample.pair.0, 2);
        sample.pair.1 = text.as_bytes().to_vec();
        sample
    };
    places.map(named).into_iter().chain([shared()]).collect()
}

/// Two records with the same part.
fn shared() -> Sample {
    let records = [
        Record::new(115, 2),
        Record::part(TEXT, 0, 1, 2),
        Record::part(TEXT, 0, 1, 2),
    ];
    let case = case_of(&records, b"xabx");
    let sample = of(&TypeParam {
        name: "ab".to_string(),
        ty: Some("ab".to_string()),
    });
    Sample {
        pair: (case.tree, case.text),
        ..sample
    }
}

/// Root LISTs: of nothing, of one, of what writes nothing, of as many as a tree can hold.
fn lists() -> Vec<Sample> {
    fn boxed(value: impl Encode + 'static) -> Box<dyn Encode> {
        Box::new(value)
    }
    let none = || boxed(Vec::<Token>::new());
    let comma = || boxed(vec![Token::bare(TK_COMMA)]);
    let stmt = || boxed(drop_type_named("t"));
    let clause = || boxed(UpsertDo::Nothing);
    let lists = [
        vec![],
        vec![none()],
        vec![none(), none()],
        vec![none(), stmt(), none()],
        vec![comma(), comma()],
        vec![stmt()],
        vec![stmt(), clause(), none(), stmt()],
        (1..MOST_RECORDS).map(|_| none()).collect(),
    ];
    lists.map(|values| of_list(&values)).into()
}

/// From clauses and selects in brackets: up to 64 records deep, and one deeper.
fn deep() -> Vec<Sample> {
    let leaf = || only(SelectTable::Table(qualified("t"), None, None));
    let sub = |from: FromClause| only(SelectTable::Sub(from, Some(As::As(name("a")))));
    let select = |from: FromClause| only(SelectTable::Select(all_from(from), None));
    let subs = |times| (0..times).fold(leaf(), |from, _| sub(from));
    let selects = |times| (0..times).fold(leaf(), |from, _| select(from));
    // Four records stand under each other in the leaf, two in each Sub, five in each Select.
    let mut samples = vec![];
    for times in [1, 2, 10, 29, 30] {
        samples.push(of(&subs(times)));
    }
    for times in [1, 2, 6, 12] {
        samples.push(of(&selects(times)));
    }
    samples.push(of(&Stmt::Select(all_from(subs(28)))));
    samples.push(of(&Cmd::Explain(Stmt::Select(all_from(selects(11))))));
    samples.push(of_list(&[Box::new(subs(29)), Box::new(subs(1))]));
    samples.push(of(&subs(31)));
    samples.push(of_list(&[Box::new(subs(30)), Box::new(subs(1))]));
    samples
}
