//! Counts of trees, kinds and answers, and the first difference.

use super::call::{Asked, Call, Outcome};
use crate::hex::hex;
use crate::report::{Numbers, ANSWERS};
use model::damage::Case;
use model::grammar::{row, Class, LIST, NONE, NUMBER, RUN, TEXT, TOKEN};
use model::outline::outline;
use model::profile::BROKEN;
use model::record::Record;
use model::samples::Judged;
use std::collections::{BTreeMap, BTreeSet};
use std::fmt;

/// What was compared without a difference.
#[derive(Default)]
pub struct Counts {
    parts: BTreeMap<&'static str, u64>,
    /// Admitted trees with a RUN where a kind from 32 up may stand.
    with_runs: u64,
    kinds: BTreeMap<u16, Seen>,
    /// Those without options, and those with them.
    measured: [Numbers; 2],
    rendered: [Numbers; 2],
    /// There is none without options.
    profiled: Numbers,
}

/// A kind in admitted trees.
#[derive(Default)]
struct Seen {
    roots: u64,
    all: u64,
    flags: BTreeSet<u16>,
}

/// A call that the library answers otherwise than expected.
pub struct Difference {
    pub part: &'static str,
    pub case: Case,
    pub call: Call,
    pub expected: Outcome,
    pub observed: Outcome,
}

impl Counts {
    /// Counts the tree, and the kinds of an admitted one.
    pub fn tree(&mut self, part: &'static str, judged: &Judged) {
        *self.parts.entry(part).or_default() += 1;
        if judged.expected.is_err() {
            return;
        }
        let mut run_for_kind = false;
        for node in outline(&judged.case.tree) {
            let record = Record::read(&judged.case.tree, node.index).expect("a whole tree");
            let seen = self.kinds.entry(record.kind).or_default();
            seen.roots += u64::from(node.index == 0);
            seen.all += 1;
            seen.flags.insert(record.flags);
            run_for_kind |= record.kind == RUN && matches!(node.slot.class, Class::Kinds(..));
        }
        self.with_runs += u64::from(run_for_kind);
    }

    /// How often each of the calls gave each answer; the profile's only if it was made.
    pub fn by_call(&self) -> Vec<(&'static str, &Numbers)> {
        let ([measure, measure_with], [render, render_with]) = (&self.measured, &self.rendered);
        let mut calls = vec![
            ("measure", measure),
            ("measure_with", measure_with),
            ("render", render),
            ("render_with", render_with),
        ];
        if self.profiled.iter().any(|&count| count > 0) {
            calls.push(("profile", &self.profiled));
        }
        calls
    }

    /// How many calls were made.
    pub fn calls(&self) -> u64 {
        let measured_or_rendered = self.measured.iter().chain(&self.rendered);
        measured_or_rendered.flatten().chain(&self.profiled).sum()
    }

    /// How many trees of each part, and how many kinds stood in admitted ones.
    pub fn told_parts(&self) -> String {
        let parts = self.parts.iter();
        let parts = parts.map(|(part, count)| format!("{part}: {} times\n", told(*count)));
        let kinds = self.kinds.len();
        format!(
            "{}kinds in admitted trees: {kinds}",
            parts.collect::<String>()
        )
    }

    /// Counts the answer.
    pub fn call(&mut self, call: &Call, outcome: &Outcome) {
        let with_options = usize::from(call.with_options);
        let numbers = match call.asked {
            Asked::Measure => &mut self.measured[with_options],
            Asked::Render(_) => &mut self.rendered[with_options],
            Asked::Profile => &mut self.profiled,
        };
        numbers[outcome.answer.number as usize] += 1;
    }
}

/// Tables as they are written in Markdown.
impl fmt::Display for Counts {
    fn fmt(&self, f: &mut fmt::Formatter<'_>) -> fmt::Result {
        for (part, count) in &self.parts {
            writeln!(f, "{part}: {count} times")?;
        }
        let with_runs = self.with_runs;
        writeln!(f, "with a RUN in the place of a record: {with_runs} trees")?;
        writeln!(f, "\n| Kind | At the root | In all | Flag values |")?;
        writeln!(f, "|---|---|---|---|")?;
        for (kind, seen) in &self.kinds {
            let (roots, all) = (told(seen.roots), told(seen.all));
            writeln!(
                f,
                "| {} | {roots} | {all} | {} |",
                named(*kind),
                seen.flags.len()
            )?;
        }
        writeln!(f, "\n{}", answers(&self.by_call()))
    }
}

/// A table of how often each call gave each answer; that of the profile only where it came.
pub fn answers(calls: &[(&str, &Numbers)]) -> String {
    let came = |number: usize| calls.iter().any(|(_, numbers)| numbers[number] > 0);
    let profile = BROKEN as usize;
    let due = ANSWERS.into_iter();
    let due: Vec<usize> = due.filter(|&each| each != profile || came(each)).collect();
    let heads: Vec<String> = due.iter().map(usize::to_string).collect();
    let mut table = format!(
        "| Call | Calls | {} |\n|---|---|{}",
        heads.join(" | "),
        "---|".repeat(due.len())
    );
    for (call, numbers) in calls {
        let all = numbers.iter().sum();
        let each = due.iter().map(|&number| numbers[number]);
        let cells = [all].into_iter().chain(each);
        let cells: Vec<String> = cells.map(told).collect();
        table += &format!("\n| {call} | {} |", cells.join(" | "));
    }
    table
}

fn named(kind: u16) -> String {
    let name = match kind {
        NONE => "NONE",
        LIST => "LIST",
        TOKEN => "TOKEN",
        RUN => "RUN",
        TEXT => "TEXT",
        NUMBER => "NUMBER",
        kind => row(kind).map_or("", |row| row.name),
    };
    format!("{kind} {name}")
}

/// With a comma before each three digits.
pub fn told(number: u64) -> String {
    let digits = number.to_string();
    let mut told = String::new();
    for (at, digit) in digits.chars().enumerate() {
        if at > 0 && (digits.len() - at).is_multiple_of(3) {
            told.push(',');
        }
        told.push(digit);
    }
    told
}

impl fmt::Display for Difference {
    fn fmt(&self, f: &mut fmt::Formatter<'_>) -> fmt::Result {
        let before = self.call.before();
        let call = match &self.call.asked {
            Asked::Measure => "measure".to_string(),
            Asked::Profile => "profile".to_string(),
            Asked::Render(_) => format!("render with room for {}", before.len()),
        };
        let options = match self.call.with_options {
            true => format!(", options {:#x}", self.case.options),
            false => String::new(),
        };
        writeln!(f, "difference in {}: {call}{options}", self.part)?;
        writeln!(f, "tree {}", hex(&self.case.tree))?;
        writeln!(f, "text {}", hex(&self.case.text))?;
        if let Asked::Render(_) = &self.call.asked {
            writeln!(f, "before {}", hex(before))?;
        }
        writeln!(f, "expected\n{}", self.expected)?;
        write!(f, "observed\n{}", self.observed)
    }
}

impl fmt::Display for Outcome {
    fn fmt(&self, f: &mut fmt::Formatter<'_>) -> fmt::Result {
        let rest = match self.rest_untouched {
            true => "untouched",
            false => "CHANGED",
        };
        let (number, place) = (self.answer.number, self.answer.place);
        writeln!(f, "  answer   {number}, place {place}")?;
        writeln!(f, "  output   {}", hex(&self.output))?;
        write!(f, "  the rest {rest}")
    }
}
