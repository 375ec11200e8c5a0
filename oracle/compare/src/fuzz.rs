//! All calls on whatever comes: good trees, damaged ones, bytes of any sort, odd rooms and records, lent between known
//! bytes and beside pages that nobody may touch. Every answer and every byte is held to the model, and to the entries of the
//! definition with the crate's stream.

mod appends;
mod judge;
mod mutate;
mod pool;

use crate::crash;
use crate::guarded::{any_fence, Fence, Fences};
use crate::jobs;
use crate::lexemes::{self, Texts};
use crate::report;
use crate::trees;
pub use judge::Judge;
#[cfg(feature = "selftest")]
pub use judge::SOURCES;
pub use mutate::mutate;
pub use pool::{good, Pool};
use std::fmt;
use tokens::random::Random;

/// One turn in so many is a list of jobs; of the others, one in so many is a text that is cut, and one a tree.
const JOBS: usize = 20;
const LEXEMES: usize = 20;
const TREES: usize = 3;

/// What was called without a difference.
#[derive(Default)]
pub struct Counts {
    appended: report::Counts,
    trees: trees::Counts,
    jobs: jobs::Counts,
    lexemes: lexemes::Counts,
    /// Lent parts between known bytes, behind a page, before a page.
    fences: [u64; 3],
}

/// At least so many calls.
pub fn compare(calls: u64, seed: u64) -> Result<Counts, String> {
    crash::watch();
    let judge = Judge::new()?;
    let mut random = Random::new(seed);
    let mut counts = Counts::default();
    let mut pool = Pool::default();
    let texts = Texts::new();
    while counts.calls() < calls {
        crash::at(counts.calls());
        if random.one_in(JOBS) {
            list(&judge, &pool, &mut random, &mut counts)?;
        } else if random.one_in(LEXEMES) {
            text(&texts, &pool, &mut random, &mut counts)?;
        } else if random.one_in(TREES) {
            tree(&judge, &mut pool, &mut random, &mut counts)?;
        } else {
            appends::compare(&mut random, &mut counts)?;
        }
    }
    Ok(counts)
}

/// One tree, and all calls that are made for it.
fn tree(
    judge: &Judge,
    pool: &mut Pool,
    random: &mut Random,
    counts: &mut Counts,
) -> Result<(), String> {
    let (part, case) = pool.drawn(random);
    let judged = judge.judged(case)?;
    pool.keep(random, &judged);
    let fences = counts.fences(random);
    let held = trees::hold_with_profile(part, &judged, fences, random, &mut counts.trees);
    held.map_err(|difference| difference.to_string())
}

/// One list of jobs, and all calls that are made for it.
fn list(
    judge: &Judge,
    pool: &Pool,
    random: &mut Random,
    counts: &mut Counts,
) -> Result<(), String> {
    let fences = [(); 4].map(|()| counts.fence(random));
    let around = jobs::within(fences);
    jobs::compare_one(judge, pool, &around, random, &mut counts.jobs)
}

/// One text that is cut from end to end: about the edges of the rule, or that of a tree.
fn text(
    texts: &Texts,
    pool: &Pool,
    random: &mut Random,
    counts: &mut Counts,
) -> Result<(), String> {
    let (part, text) = match random.one_in(2) {
        true => texts.drawn(random),
        false => ("the text of a tree", pool.drawn(random).1.text),
    };
    let fences = counts.fences(random);
    lexemes::hold_within(part, &text, fences, &mut counts.lexemes)
}

impl Counts {
    fn calls(&self) -> u64 {
        let of_trees = self.trees.calls() + self.jobs.calls();
        self.appended.total() + of_trees + self.lexemes.calls()
    }

    /// Draws how three parts are lent.
    fn fences(&mut self, random: &mut Random) -> Fences {
        [(); 3].map(|()| self.fence(random))
    }

    fn fence(&mut self, random: &mut Random) -> Fence {
        let fence = any_fence(random);
        self.fences[sort(fence)] += 1;
        fence
    }
}

fn sort(fence: Fence) -> usize {
    match fence {
        Fence::Bytes(_) => 0,
        Fence::PageBefore => 1,
        Fence::PageAfter => 2,
    }
}

impl fmt::Display for Counts {
    fn fmt(&self, f: &mut fmt::Formatter<'_>) -> fmt::Result {
        writeln!(f, "{}", self.trees.told_parts())?;
        let [bytes, before, after] = self.fences;
        writeln!(f, "parts lent between known bytes: {bytes}, with a closed page before: {before}, with one behind: {after}")?;
        let mut calls = vec![("append", self.appended.by_number())];
        calls.extend(self.trees.by_call());
        let jobs = format!(
            "render_jobs, {} calls: jobs",
            trees::told(self.jobs.calls())
        );
        calls.push((&jobs, self.jobs.by_number()));
        calls.push(("lexeme: kinds, 8 for stop", self.lexemes.by_kind()));
        write!(f, "\n{}", trees::answers(&calls))
    }
}
