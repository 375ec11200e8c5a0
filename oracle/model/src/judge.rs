//! Answers from outside, held to the model's.

use crate::damage::Case;
use crate::files::{answer, hex};
use crate::row::with_options;
use std::collections::BTreeMap;
use std::fmt;
use std::io::BufRead;

/// How often each number came.
type Numbers = BTreeMap<u32, u64>;

/// The same, in all and for each damage.
#[derive(Default)]
pub struct Counts {
    numbers: Numbers,
    damages: BTreeMap<&'static str, Numbers>,
}

/// The first case that is answered otherwise.
pub struct Difference {
    at: usize,
    name: &'static str,
    case: Case,
    expected: String,
    observed: String,
}

/// Reads a line for each case of the row, and nothing beyond them.
pub fn judge(count: usize, seed: u64, input: impl BufRead) -> Result<Counts, Box<Difference>> {
    let mut counts = Counts::default();
    let mut lines = input.lines();
    let mut line = || match lines.next() {
        Some(Ok(line)) => line,
        Some(Err(error)) => format!("unreadable: {error}"),
        None => "no line".to_string(),
    };
    for (at, (name, case)) in with_options(seed).take(count).enumerate() {
        let expected = answer(&case);
        let observed = line();
        if observed != expected {
            return Err(Box::new(Difference {
                at,
                name,
                case,
                expected,
                observed,
            }));
        }
        counts.add(name, &expected);
    }
    match line() {
        end if end == "no line" => Ok(counts),
        observed => Err(Box::new(Difference {
            at: count,
            name: "past the last case",
            case: Case::from((vec![], vec![])),
            expected: "no line".to_string(),
            observed,
        })),
    }
}

impl Counts {
    fn add(&mut self, name: &'static str, answer: &str) {
        let number = answer.split(' ').next().expect("a word");
        let number = number.parse().expect("the model's number");
        let of_damage = self.damages.entry(name).or_default();
        for numbers in [&mut self.numbers, of_damage] {
            *numbers.entry(number).or_default() += 1;
        }
    }
}

impl fmt::Display for Counts {
    fn fmt(&self, f: &mut fmt::Formatter<'_>) -> fmt::Result {
        for (number, count) in &self.numbers {
            writeln!(f, "answer {number}: {count}")?;
        }
        for (name, numbers) in &self.damages {
            let total: u64 = numbers.values().sum();
            write!(f, "{total} {name}:")?;
            for (number, count) in numbers {
                write!(f, " {number} {count}x")?;
            }
            writeln!(f)?;
        }
        Ok(())
    }
}

impl fmt::Display for Difference {
    fn fmt(&self, f: &mut fmt::Formatter<'_>) -> fmt::Result {
        writeln!(f, "difference at case {} ({})", self.at, self.name)?;
        writeln!(f, "options {:#x}", self.case.options)?;
        writeln!(f, "tree {}", hex(&self.case.tree))?;
        writeln!(f, "text {}", hex(&self.case.text))?;
        writeln!(f, "expected {}", self.expected)?;
        writeln!(f, "observed {}", self.observed)
    }
}
