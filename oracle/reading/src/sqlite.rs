//! What the sqlite3 shell accepts, beside the list and the rule.

use crate::list;
use crate::rule::DOCUMENT;
use crate::shown::{shown, told};
use std::io;
use std::process::Command;

/// A statement with `{}` where the texts stand, and the texts.
type Tried = (&'static str, &'static [&'static str]);

/// In brackets two lexemes do not pass for one with a name after it.
const VALUE: &str = "SELECT ({});";
const NAME: &str = "SELECT 1 AS {};";
const BETWEEN: &str = "SELECT (1 {} 1);";
const BEFORE: &str = "SELECT ({} 1);";

const WORDS: Tried = (
    NAME,
    &[
        "a",
        "A_1",
        "_a",
        "a$b",
        "\u{E9}",
        "a\u{20AC}",
        "\u{FEFF}",
        "1a",
    ],
);
const NUMBERS: Tried = (
    VALUE,
    &[
        "1",
        "007",
        "1.5",
        "99999999999999999999",
        "1.",
        ".5",
        "1e5",
        "1E+5",
        "1.5e-3",
        "0x1F",
        "1_000",
        "1a",
    ],
);
const STRINGS: Tried = (VALUE, &["'a'", "'a''b'", "''", "'a\nb'", "'a"]);
const QUOTED_NAMES: Tried = (
    NAME,
    &[
        "'a'",
        "\"a\"",
        "\"a\"\"b\"",
        "\"\"",
        "`a`",
        "`a``b`",
        "[a]",
        "[a b]",
        "[]",
        "\"a",
    ],
);
const BLOBS: Tried = (VALUE, &["X''", "X'0A'", "x'0a'", "X'0'", "X'zz'", "X'0A"]);
const VARIABLES: Tried = (
    VALUE,
    &[
        "?", "?1", "?0", "?01", "?32766", "?999999", "?a", ":a", ":1", ":1a", ":$", ":\u{E9}",
        "@a", "@1", "$a", "$1", "$$", ":", "@", "$", "$a::b", "$::a", "$a(b)", "#a",
    ],
);
const BINARY: Tried = (
    BETWEEN,
    &[
        "+", "-", "*", "/", "%", "=", "==", "<>", "!=", "<", "<=", ">", ">=", "<<", ">>", "&", "|",
        "||", "->", "->>", "&&", "@>", "!", "^", "=>", "===",
    ],
);
const UNARY: Tried = (BEFORE, &["~", "+", "-", "!"]);
const MARKS: Tried = (BETWEEN, &["[", "]", ":"]);
const COMMA: Tried = ("SELECT 1{} 1;", &[","]);
const SEMICOLON: Tried = ("SELECT 1{}", &[";"]);
const DOT: Tried = ("SELECT t{}a FROM (SELECT 1 AS a) AS t;", &["."]);
const OPENING: Tried = ("SELECT {}1);", &["("]);
const CLOSING: Tried = ("SELECT (1{};", &[")"]);
const BLANKS: Tried = (
    "SELECT{}(1);",
    &[" ", "\n", "\t", "\r", "\x0C", "\x0B", "--a\n", "/*a*/"],
);

const ALL: [Tried; 15] = [
    WORDS,
    NUMBERS,
    STRINGS,
    QUOTED_NAMES,
    BLOBS,
    VARIABLES,
    BINARY,
    UNARY,
    MARKS,
    COMMA,
    SEMICOLON,
    DOT,
    OPENING,
    CLOSING,
    BLANKS,
];

/// Prints the texts on which document 01 and the shell differ, and how many there are in all.
pub fn compare(program: &str) -> io::Result<()> {
    println!(
        "{program} {}",
        asked(program, "SELECT sqlite_version();")?.1
    );
    println!("| Text | In | The list | The rule | Accepted | Printed |\n|---|---|---|---|---|---|");
    let mut differing = 0;
    let texts = ALL
        .iter()
        .flat_map(|(form, texts)| texts.iter().map(move |text| (form, text)));
    for (form, text) in texts.clone() {
        let (accepted, answer) = asked(program, &form.replace("{}", text))?;
        if accepted != in_document(text) {
            differing += 1;
            let row = row(form, text);
            let accepted = if accepted { "yes" } else { "no" };
            println!("| {row} | {accepted} | {answer} |");
        }
    }
    println!("texts: {}, differing: {differing}", texts.count());
    Ok(())
}

/// A lexeme of the list, or all blank for the rule.
fn in_document(text: &str) -> bool {
    let cut = DOCUMENT.cut(text.as_bytes());
    let blank = cut.lexemes.is_empty() && cut.stop.is_none();
    blank || list::kind_of(text).is_some()
}

/// Whether the shell accepts a statement, and the first line that it prints.
fn asked(program: &str, statement: &str) -> io::Result<(bool, String)> {
    let output = Command::new(program)
        .args([":memory:", statement])
        .output()?;
    let accepted = output.status.success();
    let printed = if accepted {
        output.stdout
    } else {
        output.stderr
    };
    let printed = String::from_utf8_lossy(&printed);
    let first = printed.lines().next().unwrap_or("").to_string();
    Ok((accepted, first))
}

/// The text, the statement around it, and what document 01 makes of it.
fn row(form: &str, text: &str) -> String {
    let listed = match list::kind_of(text) {
        Some(kind) => kind.to_string(),
        None => "no lexeme".to_string(),
    };
    let rule = told(text.as_bytes(), &DOCUMENT.cut(text.as_bytes()));
    format!("{} | `{form}` | {listed} | {rule}", shown(text))
}
