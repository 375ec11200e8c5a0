//! Texts with their cuts, by hand from document 01 and reading R13.

use crate::lexeme::Kind::{self, *};
use crate::lexeme::Lexeme;
use crate::rule::{Cut, Rule};

/// A text, its lexemes, and where the reading fails.
type Listed = (
    &'static [u8],
    &'static [(Kind, &'static [u8])],
    Option<usize>,
);

/// The documents' own: nothing to read, cases S2 to S8, the example of the reader.
const DOCUMENTS: &[Listed] = &[
    (b"", &[], None),
    (b" \n ", &[], None),
    (b"a, b", &[(Word, b"a"), (Mark, b","), (Word, b"b")], None),
    (b"a.b", &[(Word, b"a"), (Mark, b"."), (Word, b"b")], None),
    (
        b"f (x)",
        &[(Word, b"f"), (Mark, b"("), (Word, b"x"), (Mark, b")")],
        None,
    ),
    (
        b"INT[]",
        &[(Word, b"INT"), (Mark, b"["), (Mark, b"]")],
        None,
    ),
    (b"X''a", &[(Blob, b"X''"), (Word, b"a")], None),
    (
        b"a X'',",
        &[(Word, b"a"), (Blob, b"X''"), (Mark, b",")],
        None,
    ),
    (
        b"BEGIN\nx;",
        &[(Word, b"BEGIN"), (Word, b"x"), (Mark, b";")],
        None,
    ),
    (b"a, 1", &[(Word, b"a"), (Mark, b","), (Number, b"1")], None),
];

/// What the rule reads and the list does not have.
const WIDER: &[Listed] = &[
    (b":", &[(Variable, b":")], None),
    (b"$", &[(Variable, b"$")], None),
    (b"?x", &[(Variable, b"?x")], None),
    (b"::", &[(Variable, b":"), (Variable, b":")], None),
    (b"@>", &[(Variable, b"@"), (Operator, b">")], None),
    (b"X'zz'", &[(Blob, b"X'zz'")], None),
    (b"x'0'", &[(Blob, b"x'0'")], None),
    (b"==>", &[(Operator, b"==>")], None),
    (b"--", &[(Operator, b"--")], None),
    (b"/*", &[(Operator, b"/*")], None),
    (b"&&", &[(Operator, b"&&")], None),
    (b"!", &[(Operator, b"!")], None),
    (b"~", &[(Operator, b"~")], None),
    (b"+-*/%=<>!&|~", &[(Operator, b"+-*/%=<>!&|~")], None),
    (b"\x80", &[(Word, b"\x80")], None),
    (b"a\xFF", &[(Word, b"a\xFF")], None),
];

/// Where one lexeme ends and the next begins with nothing between them.
const CLOSE: &[Listed] = &[
    (b"1.5", &[(Number, b"1.5")], None),
    (b"1.", &[(Number, b"1"), (Mark, b".")], None),
    (b"1.a", &[(Number, b"1"), (Mark, b"."), (Word, b"a")], None),
    (b".5", &[(Mark, b"."), (Number, b"5")], None),
    (
        b"1.2.3",
        &[(Number, b"1.2"), (Mark, b"."), (Number, b"3")],
        None,
    ),
    (b"1a", &[(Number, b"1"), (Word, b"a")], None),
    (b"0x1F", &[(Number, b"0"), (Word, b"x1F")], None),
    (b"1_0", &[(Number, b"1"), (Word, b"_0")], None),
    (b"a$1_", &[(Word, b"a$1_")], None),
    (b"a:b", &[(Word, b"a"), (Variable, b":b")], None),
    (b":a$1?2", &[(Variable, b":a$1"), (Variable, b"?2")], None),
    (
        b"a--b",
        &[(Word, b"a"), (Operator, b"--"), (Word, b"b")],
        None,
    ),
    (b"aX''", &[(Word, b"aX"), (Quoted, b"''")], None),
    (b"1x''", &[(Number, b"1"), (Blob, b"x''")], None),
    (b"$X''", &[(Variable, b"$X"), (Quoted, b"''")], None),
    (b"X", &[(Word, b"X")], None),
    (b"X\"\"", &[(Word, b"X"), (Quoted, b"\"\"")], None),
    (b"X''''", &[(Blob, b"X''"), (Quoted, b"''")], None),
    (b"X'''a'", &[(Blob, b"X''"), (Quoted, b"'a'")], None),
    (b"'a''b'", &[(Quoted, b"'a''b'")], None),
    (b"'a'\"b\"", &[(Quoted, b"'a'"), (Quoted, b"\"b\"")], None),
    (b"`a\n'`", &[(Quoted, b"`a\n'`")], None),
    (b"''", &[(Quoted, b"''")], None),
];

/// Where the reading fails: at the first byte of what could not be read.
const FAILING: &[Listed] = &[
    (b"\t", &[], Some(0)),
    (b"a\tb", &[(Word, b"a")], Some(1)),
    (b"\r", &[], Some(0)),
    (b"\x0B", &[], Some(0)),
    (b"\x0C", &[], Some(0)),
    (b"\0", &[], Some(0)),
    (b"\x7F", &[], Some(0)),
    (b"a #", &[(Word, b"a")], Some(2)),
    (b"{", &[], Some(0)),
    (b"\\", &[], Some(0)),
    (b"^", &[], Some(0)),
    (b"'", &[], Some(0)),
    (b"'''", &[], Some(0)),
    (b" \"a'", &[], Some(1)),
    (b"`a``", &[], Some(0)),
    (b"X'", &[], Some(0)),
    (b"a x'00", &[(Word, b"a")], Some(2)),
    (b"X'''", &[(Blob, b"X''")], Some(3)),
];

/// All listed texts.
fn all() -> impl Iterator<Item = &'static Listed> {
    [DOCUMENTS, WIDER, CLOSE, FAILING].into_iter().flatten()
}

/// How many there are.
pub fn count() -> usize {
    all().count()
}

/// The texts alone.
pub fn texts() -> impl Iterator<Item = &'static [u8]> {
    all().map(|listed| listed.0)
}

/// The listed texts that a rule cuts otherwise.
pub fn misread(rule: &Rule) -> Vec<&'static [u8]> {
    let other = |listed: &&Listed| rule.cut(listed.0) != expected(listed);
    all().filter(other).map(|listed| listed.0).collect()
}

/// The cut that stands in the list, with the places of its lexemes: each is the next of its bytes.
fn expected((text, lexemes, stop): &Listed) -> Cut {
    let mut end = 0;
    let mut placed = Vec::new();
    for &(kind, bytes) in *lexemes {
        let mut windows = text[end..].windows(bytes.len());
        let before = windows.position(|window| window == bytes);
        let start = end + before.expect("a lexeme of the text");
        end = start + bytes.len();
        placed.push(Lexeme { kind, start, end });
    }
    Cut {
        lexemes: placed,
        stop: *stop,
    }
}
