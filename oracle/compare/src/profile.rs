//! The field profile (request xi): trees grown for it, whole and with one thing broken, and those of all other comparisons,
//! through the exported call, held to the model; and through measure and render, which must not mind the profile.

#[cfg(feature = "selftest")]
pub mod stand_in;

use crate::crash;
use crate::fuzz::{Judge, Pool};
use crate::guarded::fences;
use crate::report::Numbers;
use crate::trees::{self, answers, told};
use model::damage::Case;
use model::options;
use model::outline::outline;
use model::profile::drawn::drawn;
use model::profile::{listed, DEEPEST};
use model::samples::Judged;
use std::collections::BTreeMap;
use std::fmt;
use tokens::random::Random;

/// One tree in so many is of another comparison.
const OTHERS: usize = 4;
/// The depths that are counted: about the deepest that the profile takes.
const DEPTHS: [usize; 5] = [DEEPEST - 2, DEEPEST - 1, DEEPEST, DEEPEST + 1, DEEPEST + 2];

type Checked = Result<(), String>;

/// What was compared without a difference.
#[derive(Default)]
pub struct Counts {
    trees: trees::Counts,
    /// What was due for each sort of tree.
    sorts: BTreeMap<&'static str, Numbers>,
    /// Admitted by the full check, and nested as deep as DEPTHS says.
    depths: [u64; DEPTHS.len()],
}

/// The listed ones, then so many random trees.
pub fn compare(count: u64, seed: u64) -> Result<Counts, String> {
    let mut counts = Counts::default();
    compare_listed(seed, &mut counts)?;
    compare_drawn(count, seed, &mut counts)?;
    Ok(counts)
}

/// The fixed list of the gate.
pub fn compare_listed(seed: u64, counts: &mut Counts) -> Checked {
    crash::watch();
    let judge = Judge::new()?;
    let mut random = Random::new(seed);
    for listed in listed::all() {
        let judged = judge.judged(listed.case)?;
        if listed.expected.is_ok() && listed.expected != judged.expected {
            return Err("a listed text is not that of the entries".to_string());
        }
        hold("listed", judged, &mut random, counts)?;
    }
    Ok(())
}

/// So many random trees.
pub fn compare_drawn(count: u64, seed: u64, counts: &mut Counts) -> Checked {
    crash::watch();
    let judge = Judge::new()?;
    let mut random = Random::new(seed);
    let mut pool = Pool::default();
    for _ in 0..count {
        let (part, case) = tree(&pool, &mut random);
        let judged = judge.judged(case)?;
        pool.keep(&mut random, &judged);
        hold(part, judged, &mut random, counts)?;
    }
    Ok(())
}

/// With any options, and in a few words what it is.
fn tree(pool: &Pool, random: &mut Random) -> (&'static str, Case) {
    if random.one_in(OTHERS) {
        let (_, case) = pool.drawn(random);
        return ("of the other comparisons", case);
    }
    let (part, case) = drawn(random);
    (part, case.with(options::any(random)))
}

/// All calls for one tree.
fn hold(part: &'static str, judged: Judged, random: &mut Random, counts: &mut Counts) -> Checked {
    crash::at(counts.trees.calls());
    let fences = fences(random);
    let held = trees::hold_profile(part, &judged, fences, random, &mut counts.trees);
    held.map_err(|difference| difference.to_string())?;
    counts.tree(part, &judged.case);
    Ok(())
}

impl Counts {
    /// Counts what was due, and how deep an admitted tree is.
    fn tree(&mut self, part: &'static str, case: &Case) {
        let (number, _) = case.profile_refusal();
        self.sorts.entry(part).or_default()[number as usize] += 1;
        if case.refusal().0 > 0 {
            return;
        }
        let deepest = outline(&case.tree).iter().map(|node| node.depth).max();
        for (count, depth) in self.depths.iter_mut().zip(DEPTHS) {
            *count += u64::from(deepest == Some(depth));
        }
    }
}

/// Tables as they are written in Markdown.
impl fmt::Display for Counts {
    fn fmt(&self, f: &mut fmt::Formatter<'_>) -> fmt::Result {
        let sorts = self.sorts.iter();
        let sorts: Vec<(&str, &Numbers)> = sorts.map(|(sort, numbers)| (*sort, numbers)).collect();
        let table = answers(&sorts);
        let table = table.replace("| Call | Calls |", "| Trees | In all |");
        writeln!(f, "{table}\n")?;
        for (depth, count) in DEPTHS.iter().zip(self.depths) {
            writeln!(f, "admitted, nested {depth} deep: {}", told(count))?;
        }
        let mut calls = self.trees.by_call();
        calls.retain(|(_, numbers)| numbers.iter().any(|&count| count > 0));
        write!(f, "\n{}", answers(&calls))
    }
}
