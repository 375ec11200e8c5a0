//! How a text is broken (request ii): cut off inside its last character, or never UTF-8. Short texts, the edges of RFC 3629
//! and random longer ones, each as the value of an append and as the text of a tree, held to Rust's own check.

use crate::call::Call;
use crate::crash;
use crate::guarded::{Fence, SHIFTS};
use crate::report::{self, Numbers};
use crate::rules;
use crate::trees::{self, answers, told};
use calls::Stream;
use model::damage::text::BAD;
use model::encode::Written;
use model::fixed::drop_type;
use model::options;
use model::samples::Judged;
use std::collections::{BTreeMap, BTreeSet};
use std::fmt;
use tokens::encoding::{text_in, CUT_OFF, LONGEST, NOT_UTF8};
use tokens::random::Random;
use tokens::token::VALUE_PRESENT;
use tokens::values::{any_kind, letter, of_length, wide};
use turso_parser::ast::{Cmd, Stmt};
use turso_parser::token::TokenType::TK_ID;

/// All texts of up to so many bytes; fewer for the planted faults.
const SHORT: usize = 3;
#[cfg(feature = "selftest")]
const SHORTER: usize = 2;

/// The bytes at which a range of RFC 3629 begins or ends.
const EDGES: [u8; 20] = [
    0x00, 0x7F, 0x80, 0x8F, 0x90, 0x9F, 0xA0, 0xBF, 0xC2, 0xDF, 0xE0, 0xE1, 0xEC, 0xED, 0xEE, 0xEF,
    0xF0, 0xF1, 0xF3, 0xF4,
];
/// The bytes of the longest character.
const WIDEST: u32 = 4;
/// What stands before the edges, and behind them.
const BEFORE: &[u8] = "readings, €".as_bytes();
const BEHIND: &[u8] = "é kwh".as_bytes();

/// Most bytes of a random text, as a rule.
const USUAL: usize = 200;
/// One in so many has about as many bytes as a text may have, up to so many less or more.
const LONG: usize = 5_000;
const NEAR: usize = 3;
/// One append in so many has no room.
const ROOMLESS: usize = 8;
/// The bytes that an output has already, and what it is filled with.
const WRITTEN: usize = 3;
const FILL: u8 = 0xEE;

type Checked = Result<(), String>;

/// What was compared without a difference: texts of each sort by their refusal, and the calls for them.
#[derive(Default)]
pub struct Counts {
    texts: BTreeMap<&'static str, Numbers>,
    appended: report::Counts,
    trees: trees::Counts,
}

/// The short texts, the edges, and so many random ones.
pub fn compare(count: u64, seed: u64) -> Result<Counts, String> {
    let mut random = Random::new(seed);
    let mut counts = Counts::default();
    crash::watch();
    short(SHORT, &mut random, &mut counts)?;
    edges(&mut random, &mut counts)?;
    longer(count, &mut random, &mut counts)?;
    Ok(counts)
}

/// Without the edges, and with fewer short texts.
#[cfg(feature = "selftest")]
pub fn compare_few(count: u64, seed: u64) -> Result<Counts, String> {
    let mut random = Random::new(seed);
    let mut counts = Counts::default();
    short(SHORTER, &mut random, &mut counts)?;
    longer(count, &mut random, &mut counts)?;
    Ok(counts)
}

/// All texts of up to so many bytes.
fn short(longest: usize, random: &mut Random, counts: &mut Counts) -> Checked {
    for length in 0..=longest {
        for number in 0..1_u32 << (8 * length) {
            let bytes = number.to_be_bytes();
            let text = &bytes[bytes.len() - length..];
            hold("every short text", text, random, counts)?;
        }
    }
    Ok(())
}

/// Four bytes, each at an edge or beside one: alone, behind a text, before one, and between two.
fn edges(random: &mut Random, counts: &mut Counts) -> Checked {
    let near = near_edges();
    let base = near.len();
    for index in 0..base.pow(WIDEST) {
        let digit = |power: u32| near[index / base.pow(power) % base];
        let bytes = [digit(3), digit(2), digit(1), digit(0)];
        let behind_text = [BEFORE, &bytes].concat();
        hold("edges", &bytes, random, counts)?;
        hold("edges behind a text", &behind_text, random, counts)?;
        let before_text = [&bytes, BEHIND].concat();
        hold("edges before a text", &before_text, random, counts)?;
        let between = [&behind_text, BEHIND].concat();
        hold("edges between texts", &between, random, counts)?;
    }
    Ok(())
}

/// Each edge, with the byte before it and the byte after it.
fn near_edges() -> Vec<u8> {
    let near = |edge: u8| [edge.wrapping_sub(1), edge, edge.wrapping_add(1)];
    let near: BTreeSet<u8> = EDGES.into_iter().flat_map(near).collect();
    near.into_iter().collect()
}

/// So many random texts.
fn longer(count: u64, random: &mut Random, counts: &mut Counts) -> Checked {
    for _ in 0..count {
        let (part, text) = drawn(random);
        hold(part, &text, random, counts)?;
    }
    Ok(())
}

/// A text that was whole, and in a few words what was done to it.
fn drawn(random: &mut Random) -> (&'static str, Vec<u8>) {
    if random.one_in(LONG) {
        return ("random, of the greatest length", longest(random));
    }
    let mut text = whole(random, USUAL);
    let at = random.below(text.len());
    match random.below(5) {
        0 => ("random, whole", text),
        1 => {
            text.truncate(at);
            ("random, cut anywhere", text)
        }
        2 => {
            text[at] = random.byte();
            ("random, a byte changed", text)
        }
        3 => {
            text.splice(at..at, broken(random));
            ("random, broken in the middle", text)
        }
        _ => {
            text.extend(broken(random));
            ("random, broken at the end", text)
        }
    }
}

/// A text of one byte at least and so many at most, often plain before its first wide character.
fn whole(random: &mut Random, most: usize) -> Vec<u8> {
    let plain = random.below(most);
    let rest = random.between(1, most - plain);
    let draw = random.pick(&[wide, any_kind, letter]);
    let text = of_length(random, plain, letter) + &of_length(random, rest, draw);
    text.into_bytes()
}

/// Bytes that are mostly no character: the beginning of one, a listed fault, or any bytes near the edges.
fn broken(random: &mut Random) -> Vec<u8> {
    match random.below(3) {
        0 => {
            let mut bytes = wide(random).to_string().into_bytes();
            bytes.truncate(random.between(1, bytes.len() - 1));
            bytes
        }
        1 => random.pick(&BAD).to_vec(),
        _ => {
            let near = near_edges();
            let length = random.between(1, WIDEST as usize);
            (0..length).map(|_| random.pick(&near)).collect()
        }
    }
}

/// As many bytes as a text may have, or a few less or more, whole or broken at the end.
fn longest(random: &mut Random) -> Vec<u8> {
    let length = random.between(LONGEST - NEAR, LONGEST + NEAR);
    let end = match random.one_in(3) {
        true => whole(random, USUAL),
        false => broken(random),
    };
    let mut text = vec![b'x'; length - end.len()];
    text.extend(end);
    text
}

/// All calls for one text.
fn hold(part: &'static str, text: &[u8], random: &mut Random, counts: &mut Counts) -> Checked {
    crash::at(counts.calls());
    as_value(part, text, random, counts)?;
    as_text(part, text, random, counts)?;
    let number = text_in(text).err().map_or(0, |(number, _)| number);
    counts.texts.entry(part).or_default()[number as usize] += 1;
    Ok(())
}

/// The value of an ID, with room for it, or for nothing.
fn as_value(part: &'static str, text: &[u8], random: &mut Random, counts: &mut Counts) -> Checked {
    let room = match random.one_in(ROOMLESS) {
        true => 0,
        false => text.len() + 1,
    };
    let stream = Stream {
        spaced: random.one_in(2),
        count: WRITTEN as u64,
        ..Stream::FRESH
    };
    let call = Call {
        record: stream.record().to_vec(),
        output: vec![FILL; WRITTEN + room],
        token: TK_ID as u16 | VALUE_PRESENT,
        value: text.to_vec(),
    };
    let fences = [known(random), known(random), fence(random)];
    let expected = rules::expected(&call);
    let checked = counts.appended.check_within(fences, part, &call, expected);
    checked
        .map(drop)
        .map_err(|difference| difference.to_string())
}

/// The name in the document's example, measured and rendered.
fn as_text(part: &'static str, text: &[u8], random: &mut Random, counts: &mut Counts) -> Checked {
    let case = drop_type(text).with(options::any(random));
    let expected = text_in(text).map(written);
    let judged = Judged { case, expected };
    let fences = [known(random), fence(random), known(random)];
    let held = trees::hold(part, &judged, fences, random, &mut counts.trees);
    held.map_err(|difference| difference.to_string())
}

/// What the crate writes for the example with this name.
fn written(name: &str) -> String {
    let type_name = name.to_string();
    let if_exists = true;
    Cmd::Stmt(Stmt::DropType {
        if_exists,
        type_name,
    })
    .text()
}

fn known(random: &mut Random) -> Fence {
    Fence::Bytes(random.below(SHIFTS))
}

/// Half of the texts end where nobody may read on.
fn fence(random: &mut Random) -> Fence {
    match random.below(4) {
        0 => known(random),
        1 => Fence::PageBefore,
        _ => Fence::PageAfter,
    }
}

impl Counts {
    fn calls(&self) -> u64 {
        self.appended.total() + self.trees.calls()
    }
}

/// Tables as they are written in Markdown.
impl fmt::Display for Counts {
    fn fmt(&self, f: &mut fmt::Formatter<'_>) -> fmt::Result {
        let cells = |numbers: &Numbers| {
            let all = numbers.iter().sum();
            let [whole, never, cut] = [0, NOT_UTF8, CUT_OFF].map(|at| numbers[at as usize]);
            [all, whole, never, cut].map(told).join(" | ")
        };
        writeln!(f, "| Texts | In all | 0 | {NOT_UTF8} | {CUT_OFF} |")?;
        writeln!(f, "|---|---|---|---|---|")?;
        let mut sum = Numbers::default();
        for (part, numbers) in &self.texts {
            writeln!(f, "| {part} | {} |", cells(numbers))?;
            sum.iter_mut()
                .zip(numbers)
                .for_each(|(all, one)| *all += one);
        }
        writeln!(f, "| all | {} |\n", cells(&sum))?;
        let mut calls = vec![("append", self.appended.by_number())];
        calls.extend(self.trees.by_call());
        write!(f, "{}", answers(&calls))
    }
}
