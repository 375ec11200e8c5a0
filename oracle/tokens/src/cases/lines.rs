//! Cases with newlines in values, which show line and column (request ix).

use super::{before_a, Case};
use crate::token::{known_numbers, Token};
use turso_parser::token::TokenType::*;

/// Values with newlines at the start, in the middle, at the end and together, among wide characters, and beside 0D.
const LINES: [&str; 16] = [
    "\n",
    "\n\n",
    "\n\n\n",
    "\na",
    "a\n",
    "a\nb",
    "\na\n",
    "a\n\nb",
    "ab\ncd\nefg",
    "\r\n",
    "\n\r",
    "a\rb",
    "\u{E9}\n",
    "\n\u{20AC}",
    "\u{E9}\n\u{20AC}",
    "\u{1F600}\n\n\u{E9}x",
];

/// All of these, in the order in which they are stored.
pub fn all() -> Vec<Case> {
    let mut cases = values_with_lines();
    cases.extend(each_with_a_line());
    cases.extend(long_lines());
    cases.extend(triggers());
    cases
}

/// Such values alone and between others, of a kind without a spelling, with one, with rules of its own, and of a blob.
fn values_with_lines() -> Vec<Case> {
    let kinds = [
        TK_ID, TK_SELECT, TK_BEGIN, TK_SEMI, TK_LP, TK_COMMA, TK_DOT, TK_BLOB,
    ];
    let mut cases = Vec::new();
    for value in LINES {
        cases.push(vec![Token::id(value)]);
        for kind in kinds {
            let before = Token::id("before\nit");
            cases.push(vec![before, Token::with(kind, value), Token::id("b")]);
        }
    }
    cases
}

/// Each kind with a line and the beginning of another, behind a word.
fn each_with_a_line() -> Vec<Case> {
    let behind = |&number: &u16| {
        let value = Some("k\nkk".to_string());
        vec![Token::id("a"), Token { number, value }]
    };
    known_numbers().iter().map(behind).collect()
}

/// Newlines behind and before plain and wide parts, about as long as what is looked at together and longer.
fn long_lines() -> Vec<Case> {
    let mut cases = Vec::new();
    for length in [15, 16, 17, 33, 63, 64, 65, 100, 300] {
        for part in ["p".repeat(length), format!("{}\u{E9}", "p".repeat(length))] {
            let ends = [format!("{part}\n"), format!("\n{part}")];
            let amid = [format!("{part}\n{part}"), format!("{part}\n\n{part}\nz")];
            for value in ends.iter().chain(&amid) {
                cases.push(before_a(value));
                cases.push(vec![Token::with(TK_SELECT, value), Token::bare(TK_COMMA)]);
            }
        }
    }
    cases
}

/// BEGIN, newline, commands with SEMI and newline behind each, END: as a trigger is written.
fn triggers() -> Vec<Case> {
    let command = |name: &str| {
        vec![
            Token::bare(TK_DELETE),
            Token::bare(TK_FROM),
            Token::id(name),
        ]
    };
    let commands = ["t", "readings", "two\nlines", "\u{E9}\u{20AC}"];
    let mut cases = Vec::new();
    for count in 0..=commands.len() {
        let mut case = vec![Token::bare(TK_TRIGGER), Token::id("tr")];
        case.push(Token::with(TK_BEGIN, "\n"));
        for name in &commands[..count] {
            case.extend(command(name));
            case.push(Token::with(TK_SEMI, "\n"));
        }
        cases.push(case.clone());
        case.push(Token::bare(TK_END));
        case.push(Token::bare(TK_SEMI));
        cases.push(case);
    }
    cases
}
