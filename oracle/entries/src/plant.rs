//! Plants one fault after another in the entries: each is to be found.

use crate::{difference, tally};
use entries::faults::faulty;
use entries::interpret::{node, Node};
use entries::Grammar;
use model::samples::{sample_in_any, Sample};
use std::collections::BTreeMap;
use tokens::random::Random;

/// A sample with its tree and the kinds in it.
struct Held {
    sample: Sample,
    root: Node,
    kinds: BTreeMap<u16, usize>,
}

/// Fails, if one of them is not found in so many samples.
pub fn plant(mut grammar: Grammar, count: usize, seed: u64) -> Result<(), String> {
    let mut random = Random::new(seed);
    let mut samples = vec![];
    for _ in 0..count {
        let sample = sample_in_any(&mut random);
        let root = node(&sample.pair.0)?;
        let mut kinds = BTreeMap::new();
        tally(&root, &mut kinds);
        samples.push(Held {
            sample,
            root,
            kinds,
        });
    }
    let (mut planted, mut missed) = (0, 0);
    for (kind, shape) in grammar.table.clone() {
        for faulty in faulty(&shape) {
            planted += 1;
            grammar.table.insert(kind, faulty.clone());
            let mut with_kind = samples.iter().filter(|held| held.kinds.contains_key(&kind));
            let found =
                with_kind.any(|held| difference(&grammar, &held.sample, &held.root).is_some());
            if !found {
                missed += 1;
                println!("not found in kind {kind}: {faulty:?}");
            }
        }
        grammar.table.insert(kind, shape);
    }
    println!("{planted} faults planted, {} found", planted - missed);
    match missed {
        0 => Ok(()),
        _ => Err(format!("{missed} faults not found")),
    }
}
