//! The reader (request iii): every short text, random ones about the edges of the reading rule and those of the stored lists,
//! each cut from end to end through the exported call, which is called again on the rest. Answers and places are held to the
//! rule of `reading`.

mod call;
mod drawn;
#[cfg(feature = "selftest")]
pub mod stand_in;

use crate::crash;
use crate::guarded::{any_fence, Fence};
use crate::hex::hex;
use crate::report::Numbers;
use crate::trees::told;
use call::{Answer, Lent};
pub use drawn::Texts;
use reading::cases;
use reading::lexeme::{Lexeme, KINDS};
use reading::rule::DOCUMENT;
use std::collections::{BTreeMap, BTreeSet};
use std::fmt;
use tokens::judge::text_of;
use tokens::random::Random;

/// What the call answers at the end and at a failure; a kind is told by its place in `KINDS`, from 1.
const END: u32 = 0;
const STOP: u32 = KINDS.len() as u32 + 1;
/// All texts of up to so many bytes.
const SHORT: usize = 3;
/// The trees of replay_trees, as `run.sh` has them.
const STORED_TREES: usize = 1293;
const STORED_SEED: u64 = 1;

type Checked = Result<(), String>;

/// What was compared without a difference.
#[derive(Default)]
pub struct Counts {
    /// For each sort of texts: those that are cut to the end, those that are not, and their bytes.
    sorts: BTreeMap<&'static str, [u64; 3]>,
    kinds: Numbers,
}

/// The short texts, those of the stored lists, and so many random ones.
pub fn compare(count: u64, seed: u64) -> Result<Counts, String> {
    let mut counts = Counts::default();
    compare_short(SHORT, seed, &mut counts)?;
    compare_listed(seed, &mut counts)?;
    compare_stored(seed, &mut counts)?;
    compare_drawn(count, seed, &mut counts)?;
    Ok(counts)
}

/// Every text of up to so many bytes.
pub fn compare_short(longest: usize, seed: u64, counts: &mut Counts) -> Checked {
    crash::watch();
    let mut random = Random::new(seed);
    for length in 0..=longest {
        for number in 0..1u32 << (8 * length) {
            let bytes = number.to_be_bytes();
            let text = &bytes[bytes.len() - length..];
            hold("every short text", text, &mut random, counts)?;
        }
    }
    Ok(())
}

/// The fixed list of the gate.
pub fn compare_listed(seed: u64, counts: &mut Counts) -> Checked {
    crash::watch();
    let mut random = Random::new(seed);
    for text in cases::all() {
        hold("listed", &text, &mut random, counts)?;
    }
    Ok(())
}

/// Each text of the other stored lists once.
fn compare_stored(seed: u64, counts: &mut Counts) -> Checked {
    let mut random = Random::new(seed);
    for text in stored() {
        hold("of the other stored lists", &text, &mut random, counts)?;
    }
    Ok(())
}

/// So many random texts.
pub fn compare_drawn(count: u64, seed: u64, counts: &mut Counts) -> Checked {
    crash::watch();
    let texts = Texts::new();
    let mut random = Random::new(seed);
    for _ in 0..count {
        let (part, text) = texts.drawn(&mut random);
        hold(part, &text, &mut random, counts)?;
    }
    Ok(())
}

/// What the lists lend as a text, and what the crate writes for their streams and trees.
fn stored() -> BTreeSet<Vec<u8>> {
    let streams = tokens::cases::all();
    let written = streams.iter().map(|tokens| text_of(tokens).into_bytes());
    let mut texts: BTreeSet<Vec<u8>> = written.collect();
    let trees = model::fixed::all(STORED_TREES, STORED_SEED);
    texts.extend(trees.into_iter().map(|case| case.text));
    let lists = model::jobs::listed::all();
    texts.extend(lists.into_iter().map(|listed| listed.list.text));
    let judged = model::texts::all().into_iter();
    for judged in judged.chain(model::profile::listed::all()) {
        texts.insert(judged.case.text);
        texts.extend(judged.expected.ok().map(String::into_bytes));
    }
    texts
}

/// One text, lent in a way that is drawn.
fn hold(part: &'static str, text: &[u8], random: &mut Random, counts: &mut Counts) -> Checked {
    let fences = [(); 3].map(|()| any_fence(random));
    hold_within(part, text, fences, counts)
}

/// One text from end to end, lent so; the last call, which finds the end or the failure, is made once more on what it left.
pub fn hold_within(
    part: &'static str,
    text: &[u8],
    fences: [Fence; 3],
    counts: &mut Counts,
) -> Checked {
    let expected = expected(text);
    let mut lent = Lent::new(text, fences);
    let mut from = 0;
    crash::at(counts.calls());
    for due in expected.iter().chain(expected.last()) {
        let observed = lent.answer(from);
        if observed != *due {
            return Err(difference(part, text, from, due, &observed));
        }
        from = due.rest;
        counts.kinds[due.kind as usize] += 1;
    }
    counts.text(part, text, &expected);
    match lent.untouched(text) {
        true => Ok(()),
        false => Err(touched(part, text)),
    }
}

/// What the calls are to answer, one after the other, by the rule.
fn expected(text: &[u8]) -> Vec<Answer> {
    let cut = DOCUMENT.cut(text);
    let (kind, place) = match cut.stop {
        Some(place) => (STOP, place),
        None => (END, text.len()),
    };
    let last = Answer {
        kind,
        start: place,
        rest: place,
    };
    cut.lexemes.iter().map(answer).chain([last]).collect()
}

/// Of the call that finds a lexeme.
fn answer(lexeme: &Lexeme) -> Answer {
    Answer {
        kind: lexeme.kind.index() as u32 + 1,
        start: lexeme.start,
        rest: lexeme.end,
    }
}

/// All data of the call, what was due and what came of it.
fn difference(part: &str, text: &[u8], from: usize, due: &Answer, observed: &Answer) -> String {
    let text = hex(text);
    format!(
        "difference in {part}: lexeme from {from} on\ntext {text}\nexpected {due:?}\nobserved {observed:?}"
    )
}

/// What is told where more was written than the two words.
fn touched(part: &str, text: &[u8]) -> String {
    let text = hex(text);
    format!("difference in {part}: the text, or bytes around what is lent, CHANGED\ntext {text}")
}

impl Counts {
    /// How many calls were made.
    pub fn calls(&self) -> u64 {
        self.kinds.iter().sum()
    }

    /// How often each kind was answered.
    pub fn by_kind(&self) -> &Numbers {
        &self.kinds
    }

    /// Counts a text, by how its cut ends.
    fn text(&mut self, part: &'static str, text: &[u8], expected: &[Answer]) {
        let failed = expected.last().is_some_and(|last| last.kind == STOP);
        let sort = self.sorts.entry(part).or_default();
        sort[usize::from(failed)] += 1;
        sort[2] += text.len() as u64;
    }
}

/// Tables as they are written in Markdown.
impl fmt::Display for Counts {
    fn fmt(&self, f: &mut fmt::Formatter<'_>) -> fmt::Result {
        writeln!(f, "| Texts | To the end | To a failure | Bytes |")?;
        writeln!(f, "|---|---|---|---|")?;
        let mut sum = [0; 3];
        for (part, sort) in &self.sorts {
            writeln!(f, "| {part} | {} |", sort.map(told).join(" | "))?;
            sum = [0, 1, 2].map(|at| sum[at] + sort[at]);
        }
        writeln!(f, "| all | {} |\n", sum.map(told).join(" | "))?;
        let kinds = KINDS.map(|kind| kind.to_string()).join(" | ");
        writeln!(f, "| Calls | end | {kinds} | stop |")?;
        writeln!(f, "|---|---|{}---|", "---|".repeat(KINDS.len()))?;
        let each = &self.kinds[END as usize..=STOP as usize];
        let cells = [self.calls()].into_iter().chain(each.iter().copied());
        let cells: Vec<String> = cells.map(told).collect();
        write!(f, "| {} |", cells.join(" | "))
    }
}
