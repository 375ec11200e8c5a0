//! The model of many trees at once, against examples by hand, and what the fixed list of jobs holds.

use model::encode::encode;
use model::jobs::listed::{self, Listed};
use model::jobs::{outcome, Answer, List, Part, Said};
use model::shared::Shared;
use std::collections::BTreeSet;
use tokens::token::Token;

const FEWEST: usize = 60;
const MOST: usize = 150;
const MOST_BYTES: usize = 300_000;

fn part(start: u64, length: u64) -> Part {
    Part { start, length }
}

/// A list without jobs over so many bytes of trees.
fn over(bytes: usize) -> List {
    List {
        options: 0,
        jobs: vec![],
        trees: (0..bytes as u8).collect(),
        text: vec![],
    }
}

#[test]
fn a_job_is_inside_if_enough_bytes_stand_behind_its_start() {
    let list = over(48);
    for (start, length) in [(0, 0), (0, 48), (16, 32), (47, 1), (48, 0)] {
        let tree = list.tree(&part(start, length)).expect("a job inside");
        let expected: Vec<u8> = (start as u8..(start + length) as u8).collect();
        assert_eq!(tree, expected);
    }
}

#[test]
fn a_job_is_outside_if_its_start_or_its_end_is_past_the_buffer() {
    let list = over(48);
    let huge = u64::MAX;
    for (start, length) in [
        (49, 0),
        (48, 1),
        (0, 49),
        (16, 33),
        (huge, 0),
        (huge, 1),
        (huge - 15, 16),
        (huge - 15, 32),
        (16, huge - 15),
        (0, huge),
        (1 << 63, 1 << 63),
        (1 << 32, 16),
        (0, 1 << 32),
    ] {
        assert_eq!(list.tree(&part(start, length)), None, "{start} {length}");
        assert!(list.case(&part(start, length)).is_none());
    }
}

fn text(text: &str) -> Answer {
    Ok(text.to_string())
}

/// Refusal, place and start of each job, and what is written.
fn told(answers: &[Answer], room: usize) -> (Vec<(u32, u32, usize)>, String) {
    let outcome = outcome(answers, room);
    let said = outcome.said.iter();
    let said = said.map(|said: &Said| (said.refusal, said.place, said.start));
    let written = String::from_utf8(outcome.written).unwrap();
    (said.collect(), written)
}

#[test]
fn texts_stand_one_behind_the_other() {
    let answers = [text("ab"), text(""), text("c")];
    let said = vec![(0, 2, 0), (0, 0, 2), (0, 1, 2)];
    assert_eq!(told(&answers, 3), (said.clone(), "abc".to_string()));
    assert_eq!(told(&answers, 9), (said, "abc".to_string()));
    assert_eq!(told(&[], 9), (vec![], String::new()));
}

#[test]
fn a_refused_job_adds_nothing_and_the_next_go_on() {
    let answers = [text("ab"), Err((4, 7)), text("cdef"), text("g"), text("h")];
    let said = vec![(0, 2, 0), (4, 7, 2), (8, 4, 2), (0, 1, 2), (8, 1, 3)];
    assert_eq!(told(&answers, 3), (said, "abg".to_string()));
    let said = vec![(8, 2, 0), (4, 7, 0), (8, 4, 0), (8, 1, 0), (8, 1, 0)];
    assert_eq!(told(&answers, 0), (said, String::new()));
}

#[test]
fn trees_that_share_a_text_name_their_own_parts() {
    let mut shared = Shared::default();
    let places = ["one", "two"].map(|name| {
        let (tree, text) = encode(&vec![Token::id(name)]);
        shared.add(&tree, &text)
    });
    assert_eq!(places, [0..32, 32..64]);
    assert_eq!(shared.text, b"onetwo");
    let start = |record: usize| shared.trees[record * 16 + 8];
    assert_eq!((start(1), start(3)), (0, 3));
}

/// The numbers that the jobs of the fixed list come to.
fn numbers(lists: &[Listed]) -> BTreeSet<u32> {
    let said = lists
        .iter()
        .flat_map(|listed| outcome(&listed.answers, listed.room).said);
    said.map(|said| said.refusal).collect()
}

#[test]
fn the_fixed_list_has_every_number_and_is_small() {
    let lists = listed::all();
    assert_eq!(numbers(&lists), (0..=10).chain([12]).collect());
    assert!((FEWEST..=MOST).contains(&lists.len()));
    let mut bytes = vec![];
    for listed in &lists {
        listed::write(&mut bytes, listed).unwrap();
    }
    assert!(bytes.len() < MOST_BYTES, "{} bytes", bytes.len());
}

#[test]
fn a_line_tells_the_answer_each_job_and_what_is_written() {
    let list = over(0);
    let listed = Listed {
        list,
        answers: vec![text("a"), Err((1, 0)), text("")],
        room: 4,
    };
    assert_eq!(listed::line(&listed), "1 0:1:0 1:0:1 0:0:1 61 kept");
    let listed = Listed {
        answers: vec![],
        ..listed
    };
    assert_eq!(listed::line(&listed), "0 - kept");
}
