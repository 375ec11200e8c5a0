//! CHECK sources that are left open (request vii): every short one, and random ones in random trees with faults, with
//! any options. Two readings that were written apart must agree on each of them, and the library with both.

mod second;

use crate::crash;
use crate::drawn::{drawn, SOURCES};
use crate::fuzz::Judge;
use crate::guarded::fences;
use crate::hex::hex;
use crate::report::{Numbers, MEASURED};
use crate::trees::{self, answers, told};
use model::check::check_with;
use model::damage::Case;
use model::encode::Encode;
use model::options::{self, Edition, SQLITE, STRICT};
use model::samples::{of_in, Judged};
use std::collections::BTreeMap;
use std::fmt;
use tokens::random::Random;
use turso_parser::ast::{
    CreateTableBody, Expr, Name, NamedTableConstraint, QualifiedName, Stmt, TableConstraint,
    TableOptions,
};

/// What short sources are made of: all that opens or ends anything, and a letter.
const ALPHABET: [u8; 8] = *b"/*-'\"`\na";
/// All sources of up to so many of these; fewer for the planted faults.
const SHORT: usize = 6;
#[cfg(feature = "selftest")]
const SHORTER: usize = 4;
/// The number of a source that is left open.
const OPEN: u32 = 9;

type Checked = Result<(), String>;

/// What was compared without a difference.
#[derive(Default)]
pub struct Counts {
    /// Short sources that end inside nothing or a line comment, and open ones.
    short: [u64; 2],
    /// How often each answer was due, for each sort of trees, with the switch off and on.
    parts: BTreeMap<(&'static str, bool), Numbers>,
    /// With the switch on and a source open: by the answer without it, how often 9 came first and how often it did not.
    beside: BTreeMap<u32, [u64; 2]>,
    trees: trees::Counts,
}

/// The short sources, and so many random trees.
pub fn compare(count: u64, seed: u64) -> Result<Counts, String> {
    compare_up_to(SHORT, count, seed)
}

/// With fewer short sources.
#[cfg(feature = "selftest")]
pub fn compare_few(count: u64, seed: u64) -> Result<Counts, String> {
    compare_up_to(SHORTER, count, seed)
}

fn compare_up_to(longest: usize, count: u64, seed: u64) -> Result<Counts, String> {
    crash::watch();
    let judge = Judge::new()?;
    let mut random = Random::new(seed);
    let mut counts = Counts::default();
    short(longest, &mut random, &mut counts)?;
    for _ in 0..count {
        let (part, case) = drawn(&SOURCES, &mut random);
        let judged = judge.judged(case)?;
        hold(part, &judged, &mut random, &mut counts)?;
    }
    Ok(counts)
}

/// All sources of up to so many bytes of the alphabet, each in a CHECK alone and in a CREATE TABLE.
fn short(longest: usize, random: &mut Random, counts: &mut Counts) -> Checked {
    for length in 0..=longest {
        for number in 0..ALPHABET.len().pow(length as u32) {
            let source = numbered(number, length);
            counts.short[usize::from(second::ends_inside(source.as_bytes()))] += 1;
            in_a_check("short sources, a CHECK alone", &of(&source), random, counts)?;
            let table = table(&source);
            in_a_check("short sources, a CREATE TABLE", &table, random, counts)?;
        }
    }
    Ok(())
}

/// The source whose letters are the digits of a number.
fn numbered(number: usize, length: usize) -> String {
    let base = ALPHABET.len();
    let letter = |power: usize| char::from(ALPHABET[number / base.pow(power as u32) % base]);
    (0..length).rev().map(letter).collect()
}

/// With the switch off and on, each in either edition and with bits that mean nothing.
fn in_a_check(
    part: &'static str,
    value: &dyn Encode,
    random: &mut Random,
    counts: &mut Counts,
) -> Checked {
    for switch in [0, STRICT] {
        let options = switch | random.pick(&[0, SQLITE]) | options::meaningless(random);
        let judged = of_in(Edition::of(options), value).judged_with(options);
        hold(part, &judged, random, counts)?;
    }
    Ok(())
}

fn of(source: &str) -> TableConstraint {
    TableConstraint::Check {
        expr: Box::new(Expr::Id(name("x"))),
        source: Some(source.to_string()),
    }
}

fn name(text: &str) -> Name {
    Name::exact(text.to_string())
}

/// CREATE TABLE with the source between two CHECKs that have whole ones.
fn table(source: &str) -> Stmt {
    let constraint = |source| NamedTableConstraint {
        name: None,
        constraint: of(source),
    };
    let constraints = ["'a'", source, "--"].map(constraint).into();
    Stmt::CreateTable {
        temporary: false,
        if_not_exists: false,
        tbl_name: QualifiedName {
            db_name: None,
            name: name("t"),
            alias: None,
        },
        body: CreateTableBody::ColumnsAndConstraints {
            columns: vec![],
            constraints,
            options: TableOptions {
                without_rowid_text: None,
                strict_text: None,
            },
        },
    }
}

/// Both readings, then all calls for one tree, with options and without.
fn hold(part: &'static str, judged: &Judged, random: &mut Random, counts: &mut Counts) -> Checked {
    crash::at(counts.trees.calls());
    let case = &judged.case;
    let strict = case.options & STRICT != 0;
    let without = check_with(case.options & !STRICT, &case.tree, &case.text);
    let expected = match strict {
        true => second::with_switch(case, without),
        false => without,
    };
    let modelled = case.refusal();
    if modelled != expected {
        return Err(two_readings(part, case, modelled, expected));
    }
    let fences = fences(random);
    let held = trees::hold_both(part, judged, fences, random, &mut counts.trees);
    held.map_err(|difference| difference.to_string())?;
    counts.count(part, case, without, expected);
    Ok(())
}

fn two_readings(part: &str, case: &Case, model: (u32, u32), second: (u32, u32)) -> String {
    format!(
        "difference in {part}: the model answers {model:?}, the second reading {second:?}\noptions {:#x}\ntree {}\ntext {}",
        case.options,
        hex(&case.tree),
        hex(&case.text)
    )
}

impl Counts {
    fn count(&mut self, part: &'static str, case: &Case, without: (u32, u32), with: (u32, u32)) {
        let strict = case.options & STRICT != 0;
        let numbers = self.parts.entry((part, strict)).or_default();
        numbers[with.0 as usize] += 1;
        if strict && second::any_open(case) {
            let other = usize::from(with.0 != OPEN);
            self.beside.entry(without.0).or_default()[other] += 1;
        }
    }
}

/// Tables as they are written in Markdown.
impl fmt::Display for Counts {
    fn fmt(&self, f: &mut fmt::Formatter<'_>) -> fmt::Result {
        let [whole, open] = self.short;
        writeln!(
            f,
            "short sources: {} whole, {} open\n",
            told(whole),
            told(open)
        )?;
        let due = MEASURED;
        let heads = due.map(|number| number.to_string());
        writeln!(f, "| Trees | Switch | In all | {} |", heads.join(" | "))?;
        writeln!(f, "|---|---|---|{}", "---|".repeat(due.len()))?;
        for ((part, strict), numbers) in &self.parts {
            let switch = if *strict { "on" } else { "off" };
            let cells = due.iter().map(|&number| told(numbers[number]));
            let cells: Vec<String> = cells.collect();
            let all = told(numbers.iter().sum());
            writeln!(f, "| {part} | {switch} | {all} | {} |", cells.join(" | "))?;
        }
        writeln!(
            f,
            "\n| Without the switch | 9 with it | the same with it, a source open behind |"
        )?;
        writeln!(f, "|---|---|---|")?;
        for (number, [open, other]) in &self.beside {
            writeln!(f, "| {number} | {} | {} |", told(*open), told(*other))?;
        }
        write!(f, "\n{}", answers(&self.trees.by_call()))
    }
}
