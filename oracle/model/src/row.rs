//! The row of cases that a seed gives: a good tree, then damaged copies of it.

use crate::check::check;
use crate::damage::{damage, Case};
use crate::encode::Pair;
use crate::{editions, grow, options, random, sources};
use tokens::random::Random;

/// Damaged copies of each good tree.
const COPIES: usize = 4;
/// One case in so many is a table of CHECKs, in the row with options.
const TABLES: usize = 8;

pub const GOOD: &str = "good";

pub struct Row {
    random: Random,
    good: Case,
    copies: usize,
}

/// A case with the name of what was done to it.
pub type Named = (&'static str, Case);

impl Row {
    pub fn new(seed: u64) -> Row {
        Row {
            random: Random::new(seed),
            good: Case::from((vec![], vec![])),
            copies: 0,
        }
    }
}

impl Iterator for Row {
    type Item = Named;

    fn next(&mut self) -> Option<Named> {
        if self.copies == 0 {
            self.copies = COPIES;
            self.good = good(&mut self.random).into();
            return Some((GOOD, self.good.clone()));
        }
        self.copies -= 1;
        let mut case = self.good.clone();
        let name = damage(&mut self.random, &mut case);
        Some((name, case))
    }
}

/// The same row, each case with options, half of them with other CHECK sources, half with other without-rowid texts, and a
/// table of CHECKs in the place of some.
pub fn with_options(seed: u64) -> impl Iterator<Item = Named> {
    // Other numbers than the row's, which stays as it is.
    let mut random = Random::new(!seed);
    Row::new(seed).map(move |(mut name, mut case)| {
        if random.one_in(TABLES) {
            (name, case) = table(&mut random);
        }
        if random.one_in(2) {
            sources::exchange(&mut random, &mut case);
        }
        if random.one_in(2) {
            editions::exchange(&mut random, &mut case);
        }
        (name, case.with(options::any(&mut random)))
    })
}

/// As it is, or damaged.
fn table(random: &mut Random) -> Named {
    let mut case = Case::from(sources::table(random));
    if random.one_in(2) {
        return ("a table of CHECKs", case);
    }
    damage(random, &mut case);
    ("a table of CHECKs, damaged", case)
}

/// From a value of the crate's types mostly, from the grammar alone sometimes.
pub fn good(random: &mut Random) -> Pair {
    let (tree, text) = match random.below(16) {
        0..=11 => random::pair(random),
        12..=14 => {
            let records = random.between(1, 60);
            grow::tree(random, records)
        }
        _ => {
            let depth = random.between(1, 64);
            grow::chain(random, depth)
        }
    };
    assert_eq!(check(&tree, &text), (0, 0), "a good tree is admitted");
    (tree, text)
}
