//! That the comparison with the crate's lexer sees what the two cut otherwise, and only that.

use reading::lexer;
use reading::partings::partings;
use reading::rule::DOCUMENT;

/// The partings of a text's two cuts: the crate's tokens, a bar, the rule's lexemes.
fn told(text: &str) -> Vec<String> {
    let ours = DOCUMENT.cut(text.as_bytes()).lexemes;
    let found = partings(&ours, &lexer::cut(text.as_bytes()));
    found.iter().map(|parting| parting.to_string()).collect()
}

#[test]
fn the_same() {
    for text in [
        "",
        "a, b",
        "[a]",
        "X'''a'",
        "'a''b' \"c\"",
        "a->>b == 1.5",
        "?1 $a @0;\n",
    ] {
        assert!(told(text).is_empty(), "{text}");
    }
}

#[test]
fn one_cuts_and_the_other_takes_whole() {
    assert_eq!(told(":9"), ["TK_COLON, TK_INTEGER | variable"]);
    assert_eq!(told("a 1e5 b"), ["TK_FLOAT | number, word"]);
    assert_eq!(told("$a(b)"), ["TK_VARIABLE | variable, mark, word, mark"]);
    assert_eq!(told("1e5 :9").len(), 2);
}

#[test]
fn one_skips_or_refuses() {
    assert_eq!(told("/*a*/"), [" | operator"]);
    assert_eq!(told("a --b\nc"), ["TK_ID | operator, word, word"]);
    assert_eq!(told("a 1b"), ["refused, BadNumber | number"]);
    assert_eq!(told("a 'b"), ["refused, UnterminatedLiteral | "]);
}
