//! The reader (request iii), through the crate: each kind, the end, failures, and the list that the oracle stored.

mod common;

use common::{hex, texts};
use kinyandoma::{lexemes, Lexeme, LexemeKind, Stream, Token, Unreadable, MOST_BYTES};

/// Kinds and spellings, and where the reading fails.
fn cut(text: &str) -> (Vec<(LexemeKind, &str)>, Option<usize>) {
    let mut found = vec![];
    for item in lexemes(text) {
        match item {
            Ok(lexeme) => found.push((lexeme.kind, &text[lexeme.range])),
            Err(Unreadable { at }) => return (found, Some(at)),
        }
    }
    (found, None)
}

/// A line of the program `cut`.
fn line(item: Result<Lexeme, Unreadable>) -> String {
    match item {
        Ok(Lexeme { kind, range, .. }) => format!("{kind} {} {}\n", range.start, range.len()),
        Err(Unreadable { at }) => format!("stop {at}\n"),
    }
}

#[test]
fn each_kind_is_told() {
    use LexemeKind::*;
    let due = vec![
        (Word, "INT"),
        (Mark, "["),
        (Mark, "]"),
        (Number, "1.5"),
        (Quoted, "'a''b'"),
        (Blob, "x'0A'"),
        (Variable, ":a$"),
        (Operator, "->>"),
    ];
    assert_eq!(cut("INT[] 1.5\n'a''b'x'0A':a$ ->>"), (due, None));
}

#[test]
fn nothing_is_cut_from_nothing_and_from_blanks() {
    for text in ["", " ", "\n \n"] {
        let mut cut = lexemes(text);
        assert_eq!(cut.next(), None);
        assert_eq!(cut.next(), None);
        assert!(cut.rest().is_empty());
    }
}

#[test]
fn the_rest_starts_right_behind_a_lexeme() {
    let mut cut = lexemes("a  b ");
    let rests = ["  b ", " ", ""];
    for rest in rests {
        cut.next();
        assert_eq!(cut.rest(), rest.as_bytes());
    }
}

#[test]
fn a_failure_is_told_once_with_its_place() {
    for (text, at) in [("a\t", 1), (" 'b", 1), ("1, X'0", 3), ("a #", 2)] {
        let mut cut = lexemes(text);
        let failure = cut.find_map(Result::err);
        assert_eq!(failure, Some(Unreadable { at }));
        assert_eq!(cut.rest(), &text.as_bytes()[at..]);
        assert_eq!((cut.next(), cut.next()), (None, None));
    }
}

#[test]
fn a_failure_says_what_to_do() {
    let told = Unreadable { at: 7 }.to_string();
    assert!(told.contains("from byte 7 on"), "{told}");
}

#[test]
fn any_bytes_and_any_length_are_cut() {
    let word = vec![0xFF; MOST_BYTES + 1];
    let found: Vec<_> = lexemes(&word).collect();
    assert_eq!(found.len(), 1);
    assert_eq!(
        found[0].as_ref().map(|lexeme| lexeme.spelling),
        Ok(&word[..])
    );
}

#[test]
fn a_readable_stream_gives_its_spellings() {
    let tokens = [
        (Token::TK_ID, Some("f")),
        (Token::TK_LP, None),
        (Token::TK_ID, Some("?1")),
        (Token::TK_COMMA, None),
        (Token::TK_BLOB, None),
        (Token::TK_RP, None),
    ];
    let mut stream = Stream::new();
    let mut text = Vec::new();
    for (token, value) in tokens {
        stream.append_to_vec(token, value, &mut text).unwrap();
    }
    let spelled: Vec<_> = lexemes(&text).map(|item| item.unwrap().spelling).collect();
    let due: [&[u8]; 6] = [b"f", b"(", b"?1", b",", b"X''", b")"];
    assert_eq!(spelled, due);
}

#[test]
fn texts_are_cut_as_stored() {
    let stored = texts();
    assert_eq!(stored.len(), 386);
    for (text, expected) in stored {
        // The program does not cut a longer text; the call does.
        if text.len() <= MOST_BYTES {
            let lines: String = lexemes(&text).map(line).collect();
            assert_eq!(lines, expected, "text {}", hex(&text));
        }
    }
}
