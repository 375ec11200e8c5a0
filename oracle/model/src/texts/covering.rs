//! Small random values, until each flag value and each state of each slot stands in the list.

use crate::check::check;
use crate::record::SIZE;
use crate::samples::{sample, Sample};
use crate::tally::Tally;
use tokens::random::Random;

/// How often each is to stand.
const TIMES: u64 = 1;
/// The small trees first: most records of a tree, and how many values are drawn for it.
const ROUNDS: [(usize, usize); 5] = [
    (8, 20_000),
    (14, 30_000),
    (22, 120_000),
    (40, 60_000),
    (90, 60_000),
];

/// What random values have, each flag value and each state of each slot.
pub fn samples(seed: u64) -> Vec<Sample> {
    let mut random = Random::new(seed);
    let mut tally = Tally::default();
    let mut kept = vec![];
    for (records, draws) in ROUNDS {
        for _ in 0..draws {
            let sample = sample(&mut random);
            let (tree, text) = &sample.pair;
            let small = tree.len() <= records * SIZE && check(tree, text) == (0, 0);
            if small && tally.gains(tree, TIMES) {
                kept.push(sample);
            }
        }
    }
    kept
}
