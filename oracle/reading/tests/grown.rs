//! What the generator of readable streams reaches, and that the rule takes each lexeme of the list whole.

use reading::grow::{Grower, Item};
use reading::lexeme::{Kind, Spelled, OPERATORS};
use reading::rule::DOCUMENT;
use std::collections::BTreeSet;
use tokens::random::Random;

const STREAMS: usize = 20_000;
const SEED: u64 = 1;
/// More digits than a 64-bit number has.
const MANY_DIGITS: usize = 30;

/// The tokens of some streams, in a row.
fn items() -> Vec<Item> {
    let grower = Grower::new();
    let mut random = Random::new(SEED);
    let stream = |_| grower.stream(&mut random);
    (0..STREAMS).flat_map(stream).collect()
}

/// Whether some lexeme of a kind is so.
fn reached(items: &[Item], kind: Kind, so: impl Fn(&str) -> bool) -> bool {
    let is = |spelled: &Spelled| spelled.kind == kind && so(&spelled.text);
    items.iter().any(|item| is(&item.spelled))
}

#[test]
fn words_and_numbers_of_every_sort() {
    let items = items();
    let word = |so: &dyn Fn(&str) -> bool| reached(&items, Kind::Word, so);
    assert!(word(&|text| text == "x") && word(&|text| text == "X"));
    assert!(word(&|text| !text.is_ascii()) && word(&|text| text.contains('$')));
    assert!(word(&|text| text.starts_with('_')) && word(&|text| text.ends_with('0')));
    let number = |so: &dyn Fn(&str) -> bool| reached(&items, Kind::Number, so);
    assert!(number(&|text| text.starts_with("00")) && number(&|text| text.len() == 1));
    assert!(number(&|text| text.contains('.')) && number(&|text| text.len() > MANY_DIGITS));
}

#[test]
fn quotes_of_every_sort() {
    let items = items();
    for quote in ["'", "\"", "`"] {
        let quoted = |so: &dyn Fn(&str) -> bool| {
            reached(&items, Kind::Quoted, |text| {
                text.starts_with(quote) && so(&text[1..text.len() - 1])
            })
        };
        assert!(quoted(&|inner| inner.is_empty()));
        assert!(quoted(&|inner| inner == quote.repeat(2)));
        let inside = ["'", "\"", "`", " ", "\n", "\t", "--", "\u{E9}", "\0"];
        assert!(inside
            .iter()
            .all(|part| quoted(&|inner| inner.contains(part))));
    }
}

#[test]
fn blobs_variables_and_operators_of_every_sort() {
    let items = items();
    for blob in ["X''", "x''"] {
        assert!(reached(&items, Kind::Blob, |text| text == blob));
    }
    for first in ["X'a", "X'A", "x'f", "x'F"] {
        assert!(reached(&items, Kind::Blob, |text| text.starts_with(first)));
    }
    let firsts = [
        "?0", ":0", ":a", ":_", ":$", "@0", "@a", "@$", "$0", "$a", "$$",
    ];
    for first in firsts {
        assert!(reached(&items, Kind::Variable, |text| text.starts_with(first)));
    }
    assert!(reached(&items, Kind::Variable, |text| text == "?"));
    assert!(reached(&items, Kind::Variable, |text| !text.is_ascii()));
    let valued = items.iter().filter(|item| item.token.value.is_some());
    let operators: BTreeSet<&str> = valued.map(|item| item.spelled.text.as_str()).collect();
    assert!(OPERATORS
        .iter()
        .all(|operator| operators.contains(operator)));
}

#[test]
fn a_lexeme_is_taken_whole() {
    for Item { spelled, .. } in items() {
        let cut = DOCUMENT.cut(spelled.text.as_bytes());
        let whole = cut.lexemes[0];
        assert_eq!((whole.kind, whole.end), (spelled.kind, spelled.text.len()));
    }
}
