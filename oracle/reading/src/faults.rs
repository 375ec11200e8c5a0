//! Faults planted in the reading rule, each of which the listed texts or random streams must show.

use crate::grow::{tokens_of, Grower, Item};
use crate::lexeme::{Kind, OPERATORS};
use crate::listed;
use crate::rule::{digit, operator_byte, run, word_byte, Rule, DOCUMENT};
use crate::streams::is_cut_back;
use tokens::judge::text_of;
use tokens::random::Random;

/// What is wrong, and how to make it so.
type Fault = (&'static str, fn(&mut Rule));

const FAULTS: &[Fault] = &[
    ("a tab is skipped", |rule| {
        rule.skips = |byte| matches!(byte, b' ' | b'\n' | b'\t')
    }),
    ("a newline is not skipped", |rule| {
        rule.skips = |byte| byte == b' '
    }),
    ("brackets are no marks", |rule| {
        rule.row(Kind::Mark).begins = |text| matches!(text[0], b',' | b';' | b'(' | b')' | b'.')
    }),
    ("a colon is a mark", |rule| {
        rule.row(Kind::Mark).begins = |text| b",;().[]:".contains(&text[0])
    }),
    ("x begins no blob", |rule| {
        rule.row(Kind::Blob).begins = |text| text.starts_with(b"X'")
    }),
    ("X begins a blob without a quote", |rule| {
        rule.row(Kind::Blob).begins = |text| text[0] == b'X' && text.contains(&b'\'')
    }),
    ("doubled quotes in a blob", |rule| {
        rule.row(Kind::Blob).takes = |text| Some(1 + to_quote_not_doubled(&text[1..])?)
    }),
    ("a blob's digits are tested", |rule| {
        rule.row(Kind::Blob).takes = through_hex_digits
    }),
    (
        "an unclosed blob, or one of other bytes, is a word",
        |rule| rule.row(Kind::Blob).begins = |text| through_hex_digits(text).is_some(),
    ),
    ("a backtick is no quote", |rule| {
        rule.row(Kind::Quoted).begins = |text| matches!(text[0], b'\'' | b'"')
    }),
    ("quotes are not doubled", |rule| {
        rule.row(Kind::Quoted).takes = |text| through_next(text, |byte, quote| byte == quote)
    }),
    ("any quote closes", |rule| {
        rule.row(Kind::Quoted).takes = |text| through_next(text, |byte, _| b"'\"`".contains(&byte))
    }),
    ("an unclosed quote runs to the end", |rule| {
        rule.row(Kind::Quoted).takes = |text| to_quote_not_doubled(text).or(Some(text.len()))
    }),
    ("a newline ends a quote", |rule| {
        rule.row(Kind::Quoted).takes =
            |text| to_quote_not_doubled(text).filter(|&end| !text[..end].contains(&b'\n'))
    }),
    ("a dot after digits is always taken", |rule| {
        rule.row(Kind::Number).takes = |text| Some(run(text, |byte| digit(byte) || byte == b'.'))
    }),
    ("no dot is taken", |rule| {
        rule.row(Kind::Number).takes = |text| Some(run(text, digit))
    }),
    ("a number takes word bytes", |rule| {
        rule.row(Kind::Number).takes =
            |text| Some(run(text, |byte| word_byte(byte) || byte == b'.'))
    }),
    ("$ is no word byte", |rule| {
        rule.row(Kind::Word).takes = |text| Some(run(text, |byte| word_byte(byte) && byte != b'$'))
    }),
    ("bytes from 80 are no word bytes", |rule| {
        rule.row(Kind::Word).takes =
            |text| Some(1 + run(&text[1..], |byte| word_byte(byte) && byte < 0x80))
    }),
    ("a digit is no word byte", |rule| {
        rule.row(Kind::Word).takes = |text| Some(run(text, |byte| word_byte(byte) && !digit(byte)))
    }),
    ("_ begins no word", |rule| {
        rule.row(Kind::Word).begins = |text| text[0].is_ascii_alphabetic() || text[0] >= 0x80
    }),
    ("$ begins no variable", |rule| {
        rule.row(Kind::Variable).begins = |text| matches!(text[0], b'?' | b':' | b'@')
    }),
    ("a variable has a name", |rule| {
        rule.row(Kind::Variable).takes =
            |text| Some(1 + run(&text[1..], word_byte)).filter(|&end| end > 1 || text[0] == b'?')
    }),
    ("? takes digits only", |rule| {
        rule.row(Kind::Variable).takes = |text| {
            let sort = if text[0] == b'?' { digit } else { word_byte };
            Some(1 + run(&text[1..], sort))
        }
    }),
    ("a variable takes no $", |rule| {
        rule.row(Kind::Variable).takes =
            |text| Some(1 + run(&text[1..], |byte| word_byte(byte) && byte != b'$'))
    }),
    ("an operator is one byte", |rule| {
        rule.row(Kind::Operator).takes = |_| Some(1)
    }),
    ("an operator is the longest listed", |rule| {
        rule.row(Kind::Operator).takes = longest_listed
    }),
    ("~ is no operator", |rule| {
        rule.row(Kind::Operator).begins = |text| operator_byte(text[0]) && text[0] != b'~'
    }),
];

/// Random streams with their texts.
const STREAMS: usize = 20_000;
const SEED: u64 = 1;

/// Whether each fault is found, and none without a fault.
pub fn try_all() -> bool {
    let grown = grown();
    let mut missed = 0;
    for (name, plant) in FAULTS {
        let mut rule = DOCUMENT;
        plant(&mut rule);
        let (texts, streams) = found(&rule, &grown);
        println!("{name}: {texts} listed texts, {streams} streams");
        missed += u32::from(texts + streams == 0);
    }
    let (texts, streams) = found(&DOCUMENT, &grown);
    println!(
        "no fault: {texts} of {} listed texts, {streams} of {STREAMS} streams",
        listed::count()
    );
    println!("faults: {}, not found: {missed}", FAULTS.len());
    missed == 0 && texts + streams == 0
}

/// How many listed texts and how many streams a rule does not cut as it should.
fn found(rule: &Rule, grown: &[(Vec<Item>, Vec<u8>)]) -> (usize, usize) {
    let other = |(items, text): &&(Vec<Item>, Vec<u8>)| !is_cut_back(rule, items, text);
    let texts = listed::misread(rule).len();
    (texts, grown.iter().filter(other).count())
}

/// Streams, and what the crate writes for them.
fn grown() -> Vec<(Vec<Item>, Vec<u8>)> {
    let grower = Grower::new();
    let mut random = Random::new(SEED);
    let stream = |_| {
        let items = grower.stream(&mut random);
        let text = text_of(&tokens_of(&items)).into_bytes();
        (items, text)
    };
    (0..STREAMS).map(stream).collect()
}

/// As the document has it.
fn to_quote_not_doubled(text: &[u8]) -> Option<usize> {
    let quoted = DOCUMENT.rows.iter().find(|row| row.kind == Kind::Quoted);
    (quoted.expect("a row a kind").takes)(text)
}

/// Through the first byte after the opening one that closes it.
fn through_next(text: &[u8], closes: fn(u8, u8) -> bool) -> Option<usize> {
    let inner = text[1..].iter().position(|&byte| closes(byte, text[0]))?;
    Some(inner + 2)
}

/// `X'`, hex digits and a quote, or nothing.
fn through_hex_digits(text: &[u8]) -> Option<usize> {
    let inner = text.strip_prefix(b"X'").or(text.strip_prefix(b"x'"))?;
    let digits = run(inner, |byte| byte.is_ascii_hexdigit());
    (inner.get(digits) == Some(&b'\'')).then_some(digits + b"X''".len())
}

/// The longest of the listed operators that stands here.
fn longest_listed(text: &[u8]) -> Option<usize> {
    let stands = |operator: &&&str| text.starts_with(operator.as_bytes());
    OPERATORS
        .iter()
        .filter(stands)
        .map(|operator| operator.len())
        .max()
}
