//! What `cut` prints, by the documents' words, and what the fixed list of the gate has.

use reading::cases;
use reading::lexeme::{Lexeme, KINDS, MARKS, OPERATORS};
use reading::printed::{printed, LONGEST};
use reading::rule::DOCUMENT;
use std::collections::BTreeSet;

#[test]
fn the_example_of_the_request() {
    assert_eq!(printed(b"a, 1"), "word 0 1\nmark 1 1\nnumber 3 1\n");
}

#[test]
fn the_other_kinds_and_a_failure() {
    let text = b"'a' X'' ?1 ->> \t";
    let lines = "quoted 0 3\nblob 4 3\nvariable 8 2\noperator 11 3\nstop 15\n";
    assert_eq!(printed(text), lines);
}

#[test]
fn the_end_prints_nothing() {
    assert_eq!(printed(b""), "");
    assert_eq!(printed(b" \n"), "");
}

#[test]
fn the_longest_text_is_cut_and_a_longer_one_is_not() {
    let text = vec![b'a'; LONGEST + 1];
    assert_eq!(printed(&text[..LONGEST]), "word 0 65536\n");
    assert_eq!(printed(&text), "2 65536\n");
}

#[test]
fn the_list_has_every_kind_operator_and_mark() {
    let lines: String = cases::all().iter().map(|text| printed(text)).collect();
    for kind in KINDS {
        assert!(lines.contains(&format!("{kind} ")));
    }
    let spelled = spelled();
    let has = |spelling: &&str| spelled.contains(spelling.as_bytes());
    assert!(OPERATORS.iter().chain(&MARKS).all(has));
}

/// The spellings of all lexemes of the list.
fn spelled() -> BTreeSet<Vec<u8>> {
    let spellings = |text: Vec<u8>| {
        let lexemes = DOCUMENT.cut(&text).lexemes.into_iter();
        let spelling = |lexeme: Lexeme| text[lexeme.start..lexeme.end].to_vec();
        lexemes.map(spelling).collect::<Vec<_>>()
    };
    cases::all().into_iter().flat_map(spellings).collect()
}
