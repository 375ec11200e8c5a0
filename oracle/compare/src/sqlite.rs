//! What the SQLite edition writes, handed to SQLite itself (request viii): tables of all sorts that it should take, each stored
//! as it was written; the same tables in the crate's edition, which it refuses where both options are there; and operator texts,
//! each read back from between its quotes. All of it goes through one process of the sqlite3 shell.

mod made;

use crate::editions::numbered;
use crate::fuzz::Judge;
use crate::guarded::fences;
use crate::trees::{self, told};
use made::{made, Table};
use model::editions::operator_with;
use model::encode::Encode;
use model::options::{Edition, SQLITE};
use model::samples::of_in;
use std::collections::BTreeMap;
use std::fmt::{self, Write as _};
use std::io::{ErrorKind, Write};
use std::process::{Command, Stdio};
use tokens::random::Random;

const SHELL: &str = "sqlite3";
/// After so many tables the shell begins with an empty database: a table is looked for among all that are there.
const BATCH: usize = 400;
/// Operator texts of up to so many letters.
const SHORT: usize = 5;
const LETTERS: usize = 4;
/// What stands before the literal of an operator clause.
const OPERATOR: &str = "OPERATOR ";

/// What was compared without a difference.
#[derive(Default)]
pub struct Counts {
    version: String,
    /// Tables by their options: WITHOUT ROWID, STRICT.
    stored: BTreeMap<(bool, bool), u64>,
    /// Tables with both options in the crate's edition, by what the shell says of them.
    refused: BTreeMap<String, u64>,
    operators: u64,
    trees: trees::Counts,
}

/// What the shell is asked, and the lines that it is to answer.
#[derive(Default)]
struct Script {
    asked: String,
    due: Vec<String>,
}

/// So many tables.
pub fn compare(count: u64, seed: u64) -> Result<Counts, String> {
    let mut random = Random::new(seed);
    let mut counts = Counts::default();
    let mut script = Script::default();
    let judge = Judge::new()?;
    script.ask("SELECT sqlite_version();\n", None);
    for number in 0..count as usize {
        if number % BATCH == 0 {
            script.ask(".open :memory:\n", None);
        }
        let table = made(&mut random, number);
        let written = both(&judge, &table.cmd, &mut random, &mut counts)?;
        *counts.stored.entry(table.options).or_default() += 1;
        script.table(&table, &written)?;
    }
    for length in 0..=SHORT {
        for number in 0..LETTERS.pow(length as u32) {
            let text = numbered(number, length);
            let clause = operator_with(&text, None);
            let [_, written] = both(&judge, &clause, &mut random, &mut counts)?;
            let literal = written.strip_prefix(OPERATOR).ok_or("an operator clause")?;
            let due = format!("operator {}", hex(&text));
            script.ask(
                &format!("SELECT 'operator ' || hex({literal});\n"),
                Some(due),
            );
            counts.operators += 1;
        }
    }
    let (answered, complaints) = shell(&script.asked)?;
    counts.hold(&script, &answered, &complaints)?;
    Ok(counts)
}

/// What the library writes for a value in the crate's edition and in SQLite's: it is held to the crate, and to the entries.
fn both(
    judge: &Judge,
    value: &dyn Encode,
    random: &mut Random,
    counts: &mut Counts,
) -> Result<[String; 2], String> {
    let mut texts = [const { String::new() }; 2];
    for (text, options) in texts.iter_mut().zip([0, SQLITE]) {
        let judged = of_in(Edition::of(options), value).judged_with(options);
        let by_entries = judge.judged(judged.case.clone())?;
        if by_entries.expected != judged.expected {
            return Err("difference: the entries write another text than the crate".to_string());
        }
        let fences = fences(random);
        let held = trees::hold_both("for SQLite", &judged, fences, random, &mut counts.trees);
        held.map_err(|difference| difference.to_string())?;
        *text = judged
            .expected
            .map_err(|refusal| format!("a table for SQLite is refused: {refusal:?}"))?;
    }
    Ok(texts)
}

impl Script {
    fn ask(&mut self, asked: &str, due: Option<String>) {
        self.asked += asked;
        self.due.extend(due);
    }

    /// In the crate's edition, if both options are there: no such table is made. In SQLite's: it is stored as it is written from
    /// its name on, and has its options.
    fn table(&mut self, table: &Table, [of_crate, sqlite]: &[String; 2]) -> Result<(), String> {
        let Table { name, number, .. } = table;
        let named = format!("'{}'", name.replace('\'', "''"));
        let schemas = "(SELECT * FROM sqlite_schema UNION ALL SELECT * FROM sqlite_temp_schema)";
        let stored = format!("FROM {schemas} WHERE type = 'table' AND name = {named}");
        if table.options == (true, true) {
            self.ask(&format!("{of_crate}\n"), None);
            let asked = format!("SELECT 'crate {number} ' || count(*) {stored};\n");
            self.ask(&asked, Some(format!("crate {number} 0")));
        } else if of_crate != sqlite {
            return Err(format!("difference: {of_crate}\n{sqlite}"));
        }
        self.ask(&format!("{sqlite}\n"), None);
        let from_name = sqlite.strip_prefix(&table.before_name());
        let from_name = from_name.and_then(|text| text.strip_suffix(';'));
        let from_name = from_name.ok_or(format!("no name of a table where it is due: {sqlite}"))?;
        let due = hex(&format!("CREATE TABLE {from_name}"));
        let asked = format!("SELECT 'stored {number} ' || hex(sql) {stored};\n");
        self.ask(&asked, Some(format!("stored {number} {due}")));
        let (rowid, strict) = (u8::from(table.options.0), u8::from(table.options.1));
        let asked = format!(
            "SELECT 'options {number} ' || wr || ' ' || strict FROM pragma_table_list({named});\n"
        );
        self.ask(&asked, Some(format!("options {number} {rowid} {strict}")));
        Ok(())
    }
}

/// What the shell says to a script: its answers, and its complaints.
fn shell(script: &str) -> Result<(String, String), String> {
    let mut shell = Command::new(SHELL);
    shell.args(["-batch", "-init", "/dev/null"]);
    shell.stdin(Stdio::piped());
    shell.stdout(Stdio::piped()).stderr(Stdio::piped());
    let mut shell = shell.spawn().map_err(|error| match error.kind() {
        ErrorKind::NotFound => format!("no {SHELL} on PATH: nothing was handed to SQLite"),
        _ => format!("{SHELL}: {error}"),
    })?;
    let mut input = shell.stdin.take().expect("a pipe");
    let output = std::thread::scope(|scope| {
        // Both ends at once: the shell answers before all is written.
        scope.spawn(move || input.write_all(script.as_bytes()));
        shell.wait_with_output()
    });
    let output = output.map_err(|error| format!("{SHELL}: {error}"))?;
    let text = |bytes: Vec<u8>| String::from_utf8_lossy(&bytes).into_owned();
    Ok((text(output.stdout), text(output.stderr)))
}

fn hex(text: &str) -> String {
    let mut digits = String::new();
    for byte in text.bytes() {
        write!(digits, "{byte:02X}").expect("a string takes all");
    }
    digits
}

impl Counts {
    /// Every answer is as it is due, and the shell complains just of the tables that are to be refused.
    fn hold(&mut self, script: &Script, answered: &str, complaints: &str) -> Result<(), String> {
        let mut lines = answered.lines();
        self.version = lines.next().unwrap_or("unknown").to_string();
        for due in &script.due {
            let line = lines.next().unwrap_or("nothing");
            if line != due {
                return Err(format!(
                    "difference: {SHELL} answers {line}\ndue {due}\n{complaints}"
                ));
            }
        }
        if let Some(line) = lines.next() {
            return Err(format!(
                "difference: {SHELL} answers {line}, nothing is due"
            ));
        }
        for line in complaints.lines() {
            if let Some((_, what)) = line.split_once(" near line ") {
                let what = what.split_once(": ").map_or(what, |(_, what)| what);
                // The option is spelled in any case.
                *self.refused.entry(what.to_lowercase()).or_default() += 1;
            }
        }
        let both = self.stored.get(&(true, true)).copied().unwrap_or(0);
        match self.refused.values().sum::<u64>() == both {
            true => Ok(()),
            false => Err(format!("difference: {both} refusals are due\n{complaints}")),
        }
    }
}

impl fmt::Display for Counts {
    fn fmt(&self, f: &mut fmt::Formatter<'_>) -> fmt::Result {
        writeln!(f, "SQLite {}", self.version)?;
        let all = self.stored.values().sum();
        writeln!(f, "stored as written: {} tables", told(all))?;
        for ((rowid, strict), count) in &self.stored {
            let options = match (rowid, strict) {
                (false, false) => "no option",
                (true, false) => "WITHOUT ROWID",
                (false, true) => "STRICT",
                (true, true) => "WITHOUT ROWID, STRICT",
            };
            writeln!(f, "  {options}: {}", told(*count))?;
        }
        for (what, count) in &self.refused {
            writeln!(
                f,
                "refused in the crate's edition: {}, {what}",
                told(*count)
            )?;
        }
        write!(f, "operator texts read back: {}", told(self.operators))
    }
}
