//! Trees and texts to try, those that were answered in a new way kept for later.

use super::mutate::mutate;
use crate::drawn::{self, EDITIONS, SOURCES};
use model::damage::sizes::of_records;
use model::damage::text::filled_to;
use model::damage::{damage, Case};
use model::grammar::{LIST, NONE, NUMBER, RUN, TEXT, TOKEN};
use model::options::Edition;
use model::record::{Record, MARK, MOST_BYTES, MOST_RECORDS, SIZE};
use model::samples::{drawn_in, sample, Judged};
use model::{editions, grow, options, profile, sources};
use std::collections::HashSet;
use tokens::random::Random;
use tokens::token::VALUE_PRESENT;
use turso_parser::token::TokenType::{TK_COMMA, TK_ID};

/// Most cases that are kept.
const KEPT: usize = 4096;
/// Longer cases are not kept: each call would take long.
const KEPT_BYTES: usize = 4096;
/// Most records of a grown tree, about.
const GROWN: usize = 60;
/// Most records of bytes that are no tree's.
const NOISE: usize = 12;
/// One case in so many stands at the limits of length.
const LIMITS: usize = 400;

/// ColumnsAndConstraints with its options, Check with its source, OperatorClause with its quotes.
const CORNERED: [u16; 3] = [98, 103, 116];
/// What their texts are made of, and fewer pieces than this.
const CORNERS: [&str; 27] = [
    "WITHOUT", "rowid", "a", "b", "é", " ", "\t", "\n", "\x0B", "\u{1F}", "\u{85}", "\u{A0}",
    "\u{1680}", "\u{2003}", "\u{200B}", "\u{2028}", "\u{3000}", "\u{FEFF}", "-", "--", "'", "\"",
    "`", "/*", "*/", "/", "*",
];
const PIECES: usize = 7;

/// Number and place of a refusal, or 0 and the length of the text.
type Answer = (u32, usize);

#[derive(Default)]
pub struct Pool {
    kept: Vec<Case>,
    seen: HashSet<Answer>,
}

impl Pool {
    /// A case with any options, and in a few words where it comes from.
    pub fn drawn(&self, random: &mut Random) -> (&'static str, Case) {
        let (part, case) = self.tree(random);
        (part, case.with(options::any(random)))
    }

    fn tree(&self, random: &mut Random) -> (&'static str, Case) {
        if random.one_in(LIMITS) {
            return ("at the limits of length", limits(random));
        }
        match random.below(19) {
            0 => ("random bytes", noise(random)),
            1 => ("random records", records(random)),
            2..=3 => ("a good tree", good(random)),
            4 => ("a text of a corner", cornered(random)),
            5..=8 => ("damaged", self.damaged(random)),
            9..=13 => ("bytes changed", self.changed(random)),
            14 => ("another's text", self.exchanged(random)),
            15 => ("sources of CHECKs", drawn::tree(&SOURCES, random).1),
            16 => (
                "what the editions differ in",
                drawn::tree(&EDITIONS, random).1,
            ),
            17 => ("about the field profile", profile::drawn::drawn(random).1),
            _ => ("two trees joined", self.joined(random)),
        }
    }

    /// Keeps what was answered in a new way.
    pub fn keep(&mut self, random: &mut Random, judged: &Judged) {
        let case = &judged.case;
        let answer = match &judged.expected {
            Ok(text) => (0, text.len()),
            Err((number, place)) => (*number, *place as usize),
        };
        let small = case.tree.len() + case.text.len() <= KEPT_BYTES;
        if !small || !self.seen.insert(answer) {
            return;
        }
        match self.kept.len() < KEPT {
            true => self.kept.push(case.clone()),
            false => self.kept[random.below(KEPT)] = case.clone(),
        }
    }

    /// One that was kept, or a good one.
    fn any(&self, random: &mut Random) -> Case {
        match self.kept.is_empty() || random.one_in(2) {
            true => good(random),
            false => self.kept[random.below(self.kept.len())].clone(),
        }
    }

    /// The model's damages, once or up to three times.
    fn damaged(&self, random: &mut Random) -> Case {
        let mut case = self.any(random);
        for _ in 0..random.between(1, 3) {
            damage(random, &mut case);
        }
        case
    }

    fn changed(&self, random: &mut Random) -> Case {
        let mut case = self.any(random);
        match random.below(4) {
            0 => mutate(random, &mut case.text),
            1 => {
                mutate(random, &mut case.tree);
                mutate(random, &mut case.text);
            }
            _ => mutate(random, &mut case.tree),
        }
        case
    }

    fn exchanged(&self, random: &mut Random) -> Case {
        let (tree, text) = (self.any(random).tree, self.any(random).text);
        Case::from((tree, text))
    }

    /// The beginning of one tree and the end of another, cut between records.
    fn joined(&self, random: &mut Random) -> Case {
        let (mut one, other) = (self.any(random), self.any(random));
        let keep = random.between(0, one.records()) * SIZE;
        let from = random.between(0, other.records()) * SIZE;
        one.tree.truncate(keep);
        one.tree.extend(&other.tree[from..]);
        one
    }
}

/// Grown from the grammar, from a value of the crate's own types, a table with CHECKs, or what the editions differ in.
pub fn good(random: &mut Random) -> Case {
    match random.below(9) {
        0 => sample(random).pair.into(),
        1 => sources::table(random).into(),
        2 => {
            let value = editions::value(random);
            drawn_in(Edition::Crate, random, &*value).pair.into()
        }
        _ => {
            let records = random.below(GROWN);
            grow::tree(random, records).into()
        }
    }
}

/// A kind that goes by what its texts say, with texts of white space, quotes and hyphens.
fn cornered(random: &mut Random) -> Case {
    let kind = random.pick(&CORNERED);
    let mut case = Case::from(grow::fullest(random, kind));
    for index in 0..case.records() {
        let text = corner_text(random);
        name(&mut case, index, &text);
    }
    case
}

/// Lets a TEXT name this text, and leaves any other record.
fn name(case: &mut Case, index: usize, text: &str) {
    let record = Record::read(&case.tree, index);
    if record.is_some_and(|record| record.kind == TEXT) {
        let (start, length) = (case.text.len() as u32, text.len() as u32);
        Record::part(TEXT, 0, start, length).write(&mut case.tree, index);
        case.text.extend(text.bytes());
    }
}

fn corner_text(random: &mut Random) -> String {
    let pieces = random.below(PIECES);
    (0..pieces).map(|_| random.pick(&CORNERS)).collect()
}

/// Of any length, or of whole records.
fn noise(random: &mut Random) -> Case {
    let tree = match random.one_in(2) {
        true => random.below(NOISE * SIZE),
        false => random.below(NOISE) * SIZE,
    };
    let text = random.below(NOISE);
    Case::from((random.bytes(tree), random.bytes(text)))
}

/// Good marks and small numbers, tokens more often than the rest.
fn records(random: &mut Random) -> Case {
    let mut tree = vec![];
    for _ in 0..random.between(1, NOISE) {
        let record = Record {
            mark: MARK,
            kind: random.pick(&[NONE, LIST, TOKEN, TOKEN, TOKEN, RUN, TEXT, NUMBER]),
            flags: random.below(256) as u16 | random.pick(&[0, VALUE_PRESENT]),
            children: random.below(4) as u16,
            start: random.below(4) as u32,
            length: random.below(4) as u32,
        };
        tree.extend(record.bytes());
    }
    let text = "aé-".as_bytes().to_vec();
    Case::from((tree, text))
}

/// A tree of 4,095 to 4,097 records, or a text of 65,535 to 65,537 bytes that is named whole.
fn limits(random: &mut Random) -> Case {
    let mut text = vec![];
    if random.one_in(2) {
        let records = random.between(MOST_RECORDS - 1, MOST_RECORDS + 1);
        let tree = of_records(random, records);
        return Case::from((tree, text));
    }
    let length = random.between(MOST_BYTES - 1, MOST_BYTES + 1);
    filled_to(random, &mut text, length);
    let named = |token| {
        let flags = token as u16 | VALUE_PRESENT;
        Record::part(TOKEN, flags, 0, length as u32).bytes()
    };
    let tree = [Record::new(RUN, 2).bytes(), named(TK_ID), named(TK_COMMA)].concat();
    Case::from((tree, text))
}
