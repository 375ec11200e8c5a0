//! What the fixed list and the good trees hold.

use model::grammar::{row, KINDS, TOKEN};
use model::outline::outline;
use model::record::Record;
use model::samples::Judged;
use model::{fixed, tally, texts};
use std::collections::BTreeSet;
use std::sync::OnceLock;
use tokens::encoding::CUT_OFF;

/// How many are stored.
const LISTED: usize = 1_293;
const MOST_BYTES: usize = 1_500_000;
const LARGE: usize = 32_768;
const FEWEST_TEXTS: usize = 500;
const MOST_TEXTS: usize = 1_100;
const MOST_BYTES_OF_TEXTS: usize = 400_000;

#[test]
fn the_fixed_list_has_every_number() {
    let cases = fixed::all(0, 1);
    let numbers = cases.iter().map(|case| case.refusal().0);
    let numbers: BTreeSet<u32> = numbers.collect();
    assert_eq!(numbers, (0..=7).chain([9, 10, CUT_OFF]).collect());
}

#[test]
fn the_fixed_list_has_every_kind_and_flag_value() {
    let mut seen = BTreeSet::new();
    for case in fixed::all(0, 1) {
        if case.refusal() == (0, 0) {
            for node in outline(&case.tree) {
                let record = Record::read(&case.tree, node.index).unwrap();
                seen.insert((record.kind, record.flags));
            }
        }
    }
    for kind in KINDS {
        for flags in 0..=kind.flags.last() {
            assert!(
                seen.contains(&(kind.number, flags)),
                "{} {flags}",
                kind.name
            );
        }
    }
}

#[test]
fn the_fixed_list_is_small() {
    let cases = fixed::all(LISTED, 1);
    let size = |case: &model::damage::Case| case.tree.len() + case.text.len();
    assert_eq!(cases.len(), LISTED);
    assert!(fixed::all(0, 1).len() < LISTED, "some are random");
    assert!(cases.iter().map(|case| 12 + size(case)).sum::<usize>() < MOST_BYTES);
    assert!(cases.iter().filter(|case| size(case) > LARGE).count() <= 8);
}

#[test]
fn the_good_trees_hold_everything() {
    let tally = tally::tally(60_000, 1);
    assert_eq!(tally.missing(), []);
    assert_eq!(tally.surplus(), []);
}

#[test]
fn the_table_has_each_kind_once() {
    let numbers: Vec<u16> = KINDS.iter().map(|kind| kind.number).collect();
    let expected: Vec<u16> = [10].into_iter().chain(32..=64).chain(80..=120).collect();
    assert_eq!(numbers, expected);
    assert!(numbers.iter().all(|&number| row(number).is_some()));
}

fn listed_texts() -> &'static [Judged] {
    static LISTED: OnceLock<Vec<Judged>> = OnceLock::new();
    LISTED.get_or_init(texts::all)
}

#[test]
fn the_list_of_texts_holds_everything() {
    let mut tally = tally::Tally::default();
    let admitted = listed_texts()
        .iter()
        .filter(|judged| judged.expected.is_ok());
    // Each gains, as nothing is seen so often.
    admitted.for_each(|judged| assert!(tally.gains(&judged.case.tree, u64::MAX)));
    let missing = tally.missing().into_iter();
    let missing: Vec<_> = missing.filter(|(kind, _)| *kind != TOKEN).collect();
    assert_eq!(missing, []);
}

#[test]
fn the_list_of_texts_has_every_refusal_and_is_small() {
    let refused = listed_texts()
        .iter()
        .filter_map(|judged| judged.expected.as_ref().err());
    let numbers: BTreeSet<u32> = refused.map(|(number, _)| *number).collect();
    assert_eq!(numbers, (1..=7).chain([9, 10, CUT_OFF]).collect());
    let size = |judged: &Judged| {
        let case = &judged.case;
        12 + case.tree.len() + case.text.len() + texts::line(judged).len() + 1
    };
    assert!((FEWEST_TEXTS..=MOST_TEXTS).contains(&listed_texts().len()));
    assert!(listed_texts().iter().map(size).sum::<usize>() < MOST_BYTES_OF_TEXTS);
}
