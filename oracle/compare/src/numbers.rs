//! Numbers of every length and both signs, four in a CREATE SEQUENCE, held to Rust's own decimal text and the crate's.

use crate::trees::{self, answers, by_bytes};
use model::damage::Case;
use model::encode::{encode, Written};
use model::options;
use model::samples::Judged;
use std::fmt;
use tokens::random::Random;
use turso_parser::ast::{Name, QualifiedName, Stmt};

/// The numbers of a sequence.
const SLOTS: usize = 4;
/// The most digits of a number.
const MOST: usize = 19;
/// How far from an edge a number is still tried.
const NEAR: i64 = 2;

/// What was compared without a difference: numbers by how many digits they have, those below 0 apart.
#[derive(Default)]
pub struct Counts {
    below: [u64; MOST],
    others: [u64; MOST],
    trees: trees::Counts,
}

/// The edges, and random numbers until there are so many.
pub fn compare(count: u64, seed: u64) -> Result<Counts, String> {
    let mut random = Random::new(seed);
    let mut counts = Counts::default();
    for numbers in edges().chunks_exact(SLOTS) {
        let numbers = numbers.try_into().expect("as many as there are slots");
        hold("a sequence at the edges", numbers, &mut random, &mut counts)?;
    }
    while counts.numbers() < count {
        let numbers = [(); SLOTS].map(|()| any(&mut random));
        hold("a random sequence", numbers, &mut random, &mut counts)?;
    }
    Ok(counts)
}

/// Each digit in each place and its neighbours, of both signs, and the ends of the range; each of them in every slot.
fn edges() -> Vec<i64> {
    let mut edges = vec![];
    for place in 0..MOST as u32 {
        for digit in 0..=9 {
            let number = digit * 10_i64.pow(place);
            let near = (-NEAR..=NEAR).filter_map(|off| number.checked_add(off));
            edges.extend(near.flat_map(|number| [number, -number]));
        }
    }
    for off in 0..=NEAR {
        edges.extend([i64::MIN + off, i64::MAX - off]);
    }
    edges.into_iter().flat_map(|edge| [edge; SLOTS]).collect()
}

/// As many digits as the draw says, and either sign.
fn any(random: &mut Random) -> i64 {
    let digits = random.between(1, MOST) as u32;
    let below = random.one_in(2);
    let first = if digits == 1 {
        0
    } else {
        10_u64.pow(digits - 1)
    };
    let most = i64::MAX as u64 + u64::from(below);
    let last = (10_u64.pow(digits) - 1).min(most);
    let magnitude = first + random.word() % (last - first + 1);
    if below {
        magnitude.wrapping_neg() as i64
    } else {
        magnitude as i64
    }
}

fn hold(
    part: &'static str,
    numbers: [i64; SLOTS],
    random: &mut Random,
    counts: &mut Counts,
) -> Result<(), String> {
    let stmt = sequence(numbers);
    let text = text(numbers);
    if stmt.text() != text {
        return Err(format!("the crate writes {:?}", stmt.text()));
    }
    let case = Case::from(encode(&stmt)).with(options::any(random));
    let expected = Ok(text);
    let judged = Judged { case, expected };
    let fences = by_bytes(random.word() as usize);
    let held = trees::hold(part, &judged, fences, random, &mut counts.trees);
    held.map_err(|difference| difference.to_string())?;
    numbers.iter().for_each(|&number| counts.count(number));
    Ok(())
}

/// What Rust writes for the numbers, between the words of the statement.
fn text(numbers: [i64; SLOTS]) -> String {
    let [start, increment, least, most] = numbers.map(|number| number.to_string());
    format!("CREATE SEQUENCE s START WITH {start} INCREMENT BY {increment} MINVALUE {least} MAXVALUE {most}")
}

fn sequence([start, increment, min_value, max_value]: [i64; SLOTS]) -> Stmt {
    Stmt::CreateSequence {
        if_not_exists: false,
        seq_name: QualifiedName {
            db_name: None,
            name: Name::exact("s".to_string()),
            alias: None,
        },
        start: Some(start),
        increment: Some(increment),
        min_value: Some(min_value),
        max_value: Some(max_value),
        cycle: false,
    }
}

impl Counts {
    fn count(&mut self, number: i64) {
        let digits = number.unsigned_abs().checked_ilog10().unwrap_or(0);
        let by_length = if number < 0 {
            &mut self.below
        } else {
            &mut self.others
        };
        by_length[digits as usize] += 1;
    }

    fn numbers(&self) -> u64 {
        self.below.iter().chain(&self.others).sum()
    }
}

/// A table as it is written in Markdown.
impl fmt::Display for Counts {
    fn fmt(&self, f: &mut fmt::Formatter<'_>) -> fmt::Result {
        writeln!(f, "numbers: {}\n", self.numbers())?;
        writeln!(f, "| Digits | Below 0 | Others |\n|---|---|---|")?;
        for (at, (below, others)) in self.below.iter().zip(&self.others).enumerate() {
            writeln!(f, "| {} | {below} | {others} |", at + 1)?;
        }
        writeln!(f, "\n{}\n", self.trees.told_parts())?;
        write!(f, "{}", answers(&self.trees.by_call()))
    }
}
