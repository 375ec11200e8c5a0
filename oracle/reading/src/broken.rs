//! Small streams that break one rule of readable streams each, and what their texts are cut to.

use crate::carriers::{carried, read_off};
use crate::rule::{Cut, DOCUMENT};
use crate::shown::{shown, told};
use tokens::judge::text_of;
use tokens::token::Token;
use turso_parser::token::TokenType::*;

/// Whether the text is cut back to the spellings although the rule is broken.
#[derive(Clone, Copy, Debug, PartialEq)]
enum Outcome {
    CutBack,
    NotCutBack,
}

use Outcome::{CutBack, NotCutBack};

/// What stands in the place of a lexeme, the stream, and what comes of it.
type Broken = (&'static str, Vec<Token>, Outcome);

/// Prints a table, and whether each stream breaks one rule only and comes out as listed.
pub fn try_all() -> bool {
    println!("| Broken | Stream | Text | Cut to | Cut back |\n|---|---|---|---|---|");
    let lists = [
        fixed(),
        with_newline(),
        no_lexeme(),
        two_lexemes(),
        blobs(),
        dots(),
    ];
    let all: Vec<Broken> = lists.concat();
    let harmless = all.iter().filter(|broken| broken.2 == CutBack).count();
    let wrong = all.iter().filter(|broken| !as_listed(broken)).count();
    let count = all.len();
    println!(
        "breaking streams: {count}, cut back all the same: {harmless}, not as listed: {wrong}"
    );
    wrong == 0
}

/// A fixed spelling that is no lexeme, or one with a value that is no newline.
fn fixed() -> Vec<Broken> {
    let bare = Token::bare;
    let id = Token::id;
    let with = Token::with;
    let no_lexeme = "a fixed spelling that is no lexeme";
    let value = "a fixed spelling with a value other than a newline";
    vec![
        (no_lexeme, vec![bare(TK_ARRAY_CONTAINS)], NotCutBack),
        (no_lexeme, vec![bare(TK_ARRAY_OVERLAP)], CutBack),
        (no_lexeme, vec![bare(TK_COLON), id("a")], CutBack),
        (value, vec![with(TK_SELECT, "x")], NotCutBack),
        (value, vec![with(TK_BEGIN, ""), bare(TK_END)], NotCutBack),
        (value, vec![with(TK_BEGIN, "\t"), bare(TK_END)], NotCutBack),
        (value, vec![with(TK_BEGIN, " "), bare(TK_END)], CutBack),
        (value, vec![with(TK_BEGIN, "\n\n"), bare(TK_END)], CutBack),
        (value, vec![with(TK_MINUS, ""), bare(TK_MINUS)], NotCutBack),
        (value, vec![with(TK_LT, ""), bare(TK_GT)], NotCutBack),
        (value, vec![with(TK_PLUS, ""), id("a")], CutBack),
        (value, vec![with(TK_SEMI, "x")], NotCutBack),
        (value, vec![with(TK_LP, "z"), id("b")], NotCutBack),
        (value, vec![with(TK_COMMA, ""), id("a")], CutBack),
    ]
}

/// A newline where only a word or `;` may have one.
fn with_newline() -> Vec<Broken> {
    let newline = "a newline after another spelling than a word or `;`";
    let between = |kind| vec![Token::id("a"), Token::with(kind, "\n"), Token::id("b")];
    vec![
        (
            newline,
            vec![Token::with(TK_PLUS, "\n"), Token::bare(TK_MINUS)],
            CutBack,
        ),
        (newline, between(TK_COMMA), CutBack),
        (newline, between(TK_LP), CutBack),
        (newline, between(TK_DOT), CutBack),
    ]
}

/// No fixed spelling, and nothing, a mark, or what the list does not have.
fn no_lexeme() -> Vec<Broken> {
    let bare = Token::bare;
    let id = Token::id;
    let nothing = "no fixed spelling, and no value or a blank one";
    let mark = "a mark as a value";
    let unlisted = "a value that is no lexeme";
    vec![
        (nothing, vec![id("a"), bare(TK_ID), id("b")], NotCutBack),
        (nothing, vec![id("a"), id(""), id("b")], NotCutBack),
        (nothing, vec![id("a"), id("\n"), id("b")], NotCutBack),
        (mark, vec![id("a"), id(","), id("b")], CutBack),
        (mark, vec![id("a"), id("."), id("b")], CutBack),
        (mark, vec![id("("), id("a"), bare(TK_RP)], CutBack),
        (unlisted, vec![id("'a"), id("'b'")], NotCutBack),
        (unlisted, vec![id("X'0"), id("b")], NotCutBack),
        (unlisted, vec![id("a\tb")], NotCutBack),
        (unlisted, vec![id("\t"), id("b")], NotCutBack),
        (unlisted, vec![id("#")], NotCutBack),
        (unlisted, vec![id(" a")], NotCutBack),
        (unlisted, vec![id("X'zz'"), id("a")], CutBack),
        (unlisted, vec![id("?x")], CutBack),
        (unlisted, vec![id(":")], CutBack),
        (unlisted, vec![id("==>")], CutBack),
        (unlisted, vec![id("--"), id("a")], CutBack),
    ]
}

/// More than one lexeme in a value.
fn two_lexemes() -> Vec<Broken> {
    let two = "a value of more than one lexeme";
    let values = [
        "a b", "a,b", "a.b", "1a", "1.", ".5", "1e-5", "a--b", "'a'b", "-1", "f(x)",
    ];
    let alone = |value| (two, vec![Token::id(value)], NotCutBack);
    values.map(alone).to_vec()
}

/// TK_BLOB with what is no blob: the next token follows with no space.
fn blobs() -> Vec<Broken> {
    let bare = Token::bare;
    let id = Token::id;
    let blob = |value| Token::with(TK_BLOB, value);
    let other = "TK_BLOB with another value than a blob";
    vec![
        (other, vec![blob("a"), id("b")], NotCutBack),
        (other, vec![blob("1"), id("2")], NotCutBack),
        (other, vec![blob("'a'"), id("'b'")], NotCutBack),
        (other, vec![blob("+"), bare(TK_MINUS)], NotCutBack),
        (other, vec![blob("?"), id("1")], NotCutBack),
        (other, vec![blob(""), id("a")], NotCutBack),
        (other, vec![blob("a"), bare(TK_COMMA)], CutBack),
        (other, vec![blob("'a'"), id("b")], CutBack),
        (other, vec![blob("X'zz'"), id("b")], CutBack),
    ]
}

/// A dot beside a number: of numbers on both sides one number may become.
fn dots() -> Vec<Broken> {
    let id = Token::id;
    let dot = || Token::bare(TK_DOT);
    let beside = "a dot beside a number";
    vec![
        (beside, vec![id("1"), dot(), id("5")], NotCutBack),
        (beside, vec![id("1.5"), dot(), id("5")], CutBack),
        (beside, vec![id("a"), dot(), id("5")], CutBack),
        (beside, vec![id("1"), dot(), id("a")], CutBack),
        (beside, vec![dot(), id("5")], CutBack),
        (beside, vec![id("1"), dot()], CutBack),
    ]
}

/// Prints a row, and whether it is one broken rule with the outcome that is listed.
fn as_listed((broken, stream, outcome): &Broken) -> bool {
    let text = text_of(stream).into_bytes();
    let cut = DOCUMENT.cut(&text);
    let observed = match spellings(&text, &cut) == Some(claimed(stream)) {
        true => CutBack,
        false => NotCutBack,
    };
    let cut_back = if observed == CutBack { "yes" } else { "no" };
    let told = told(&text, &cut);
    let text = shown(&String::from_utf8_lossy(&text));
    let names: Vec<String> = stream.iter().map(name).collect();
    let names = names.join(", ");
    println!("| {broken} | {names} | {text} | {told} | {cut_back} |");
    let broken_tokens = stream.iter().filter(|token| carried(token).is_none());
    observed == *outcome && read_off(stream).is_none() && broken_tokens.count() <= 1
}

/// The bytes of the lexemes, if the reading did not fail.
fn spellings(text: &[u8], cut: &Cut) -> Option<Vec<String>> {
    let bytes = cut
        .lexemes
        .iter()
        .map(|lexeme| &text[lexeme.start..lexeme.end]);
    let spelled = bytes.map(|bytes| String::from_utf8_lossy(bytes).to_string());
    cut.stop.is_none().then(|| spelled.collect())
}

/// What the tokens would have to be cut to: fixed spellings, or values where there is none.
fn claimed(stream: &[Token]) -> Vec<String> {
    let value = |token: &Token| token.value.clone().unwrap_or_default();
    let spelling = |token: &Token| match token.kind().as_str() {
        Some(fixed) => fixed.to_string(),
        None => value(token),
    };
    stream.iter().map(spelling).collect()
}

/// A token as document 01 names it: `ID a`.
fn name(token: &Token) -> String {
    let kind = token.kind().to_string();
    let kind = kind.trim_start_matches("TK_").to_string();
    match token.value.as_deref() {
        None => kind,
        Some("") => format!("{kind} empty"),
        Some(value) => format!("{kind} {}", shown(value)),
    }
}
