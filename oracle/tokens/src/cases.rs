//! The fixed list of append cases, and the two files made of it.

mod lines;

use crate::encoding::text_in;
use crate::judge::{spaced_after, text_of};
use crate::position::Position;
use crate::random::Random;
use crate::token::{known_numbers, Token};
use crate::values::{
    any_kind, blank, letter, of_length, random_token, wide, BLANKS, BROKEN_ENDS, NOT_BLANK, WIDE,
};
use turso_parser::token::TokenType::{self, *};

/// The tokens of one stream, at most 40.
pub type Case = Vec<Token>;

pub const MOST_TOKENS: usize = 40;
const SEED: u64 = 1;
const RANDOM_STREAMS: usize = 600;
const LONGEST_RANDOM_VALUE: usize = 200;

/// Plain bytes before a broken end: none, and more than are looked at together.
const PLAIN_BEFORE: [usize; 2] = [0, 300];

/// The kinds that take no space before them or leave none after them.
const CLOSE: [TokenType; 7] = [
    TK_COMMA,
    TK_SEMI,
    TK_RP,
    TK_DOT,
    TK_LBRACKET,
    TK_RBRACKET,
    TK_LP,
];

/// All cases, in the order in which they are stored.
pub fn all() -> Vec<Case> {
    let mut random = Random::new(SEED);
    let mut cases = document_cases();
    cases.extend(each_alone());
    cases.extend(each_between_ids());
    cases.extend(close_pairs());
    cases.extend(close_with_values());
    cases.extend(blob_with_neighbours());
    cases.extend(each_ascii_byte());
    cases.extend(blank_values());
    cases.extend(wide_values());
    cases.extend(long_values(&mut random));
    cases.extend(random_streams(&mut random));
    cases.extend(lines::all());
    cases
}

/// Values that are no text, which no token of the crate can have.
pub fn broken_values() -> Vec<Vec<u8>> {
    let behind = |plain: usize| BROKEN_ENDS.map(|end| [&vec![b'x'; plain], end].concat());
    PLAIN_BEFORE.into_iter().flat_map(behind).collect()
}

/// Per case: the number of tokens; per token: flags, value length, value. Then a stream for each broken value.
pub fn input_file(cases: &[Case], broken: &[Vec<u8>]) -> Vec<u8> {
    let written = cases.iter().map(|case| encoded(case));
    let refused = broken.iter().map(|value| encoded_around(value));
    written.chain(refused).flatten().collect()
}

/// Per case one line: the text in hex, the bit, and the line and column where the text ends; or the refusal.
pub fn expected_file(cases: &[Case], broken: &[Vec<u8>]) -> String {
    let written = cases.iter().map(|case| expected_line(case));
    let refused = broken.iter().map(|value| refused_line(value));
    written.chain(refused).collect()
}

/// The line of a stream with a value that is refused: the refusal's number and place.
fn refused_line(value: &[u8]) -> String {
    let (number, place) = text_in(value).expect_err("a value that is no text");
    format!("refused {number} {place}\n")
}

fn encoded(case: &[Token]) -> Vec<u8> {
    assert!(case.len() <= MOST_TOKENS);
    let tokens = case
        .iter()
        .flat_map(|token| encoded_token(token.flags(), token.value_bytes()));
    [case.len() as u8].into_iter().chain(tokens).collect()
}

/// A stream with this value between two others.
fn encoded_around(value: &[u8]) -> Vec<u8> {
    let tokens = [b"a", value, b"b"];
    let flags = Token::id("").flags();
    let encoded = tokens.iter().flat_map(|value| encoded_token(flags, value));
    [tokens.len() as u8].into_iter().chain(encoded).collect()
}

fn encoded_token(flags: u16, value: &[u8]) -> Vec<u8> {
    let length = u16::try_from(value.len()).expect("a value of two length bytes");
    [&flags.to_le_bytes(), &length.to_le_bytes(), value].concat()
}

fn expected_line(case: &[Token]) -> String {
    let bit = u8::from(spaced_after(case));
    let text = text_of(case).into_bytes();
    let Position { line, column } = Position::behind(&text);
    format!("{} {bit} {line} {column}\n", hex_or_dash(&text))
}

fn hex_or_dash(bytes: &[u8]) -> String {
    if bytes.is_empty() {
        return "-".to_string();
    }
    bytes.iter().map(|byte| format!("{byte:02x}")).collect()
}

/// S1 to S12 of section 6. The crate must write what the document says.
fn document_cases() -> Vec<Case> {
    let bare = Token::bare;
    let id = Token::id;
    let with = Token::with;
    let listed = [
        (vec![], ""),
        (vec![id("a"), bare(TK_COMMA), id("b")], "a, b"),
        (vec![id("a"), bare(TK_DOT), id("b")], "a.b"),
        (vec![id("f"), bare(TK_LP), id("x"), bare(TK_RP)], "f (x)"),
        (
            vec![id("INT"), bare(TK_LBRACKET), bare(TK_RBRACKET)],
            "INT[]",
        ),
        (vec![bare(TK_BLOB), id("a")], "X''a"),
        (vec![id("a"), bare(TK_BLOB), bare(TK_COMMA)], "a X'',"),
        (
            vec![
                with(TK_BEGIN, "\n"),
                id("x"),
                with(TK_SEMI, "\n"),
                bare(TK_END),
            ],
            "BEGIN\nx;\nEND",
        ),
        (vec![id("a"), id(""), id("b")], "a b"),
        (vec![with(TK_BEGIN, ""), bare(TK_END)], "BEGINEND"),
        (vec![id("\x0B"), id("a")], "\x0B a"),
        (vec![with(TK_LP, "z"), id("b")], "(z b"),
    ];
    for (case, text) in &listed {
        assert_eq!(&text_of(case), text);
    }
    listed.into_iter().map(|(case, _)| case).collect()
}

fn each_alone() -> Vec<Case> {
    let values = [
        None,
        Some(""),
        Some(" "),
        Some("\n"),
        Some("k"),
        Some("\u{E9}\u{20AC}\u{1F600}"),
    ];
    let mut cases = Vec::new();
    for &number in known_numbers() {
        for value in values {
            cases.push(vec![Token {
                number,
                value: value.map(str::to_string),
            }]);
        }
    }
    cases
}

fn each_between_ids() -> Vec<Case> {
    let between = |&number: &u16| {
        vec![
            Token::id("a"),
            Token {
                number,
                value: None,
            },
            Token::id("b"),
        ]
    };
    known_numbers().iter().map(between).collect()
}

/// The close kinds, BLOB and ID.
fn neighbours() -> Vec<Token> {
    let mut tokens: Vec<Token> = CLOSE.into_iter().map(Token::bare).collect();
    tokens.push(Token::bare(TK_BLOB));
    tokens.push(Token::id("n"));
    tokens
}

/// Every pair, from a fresh stream and between two IDs.
fn close_pairs() -> Vec<Case> {
    let mut cases = Vec::new();
    for first in neighbours() {
        for second in neighbours() {
            cases.push(vec![first.clone(), second.clone()]);
            cases.push(vec![Token::id("a"), first.clone(), second, Token::id("b")]);
        }
    }
    cases
}

fn close_with_values() -> Vec<Case> {
    let mut cases = Vec::new();
    for kind in CLOSE {
        for value in ["", " ", "z", "\x0B"] {
            cases.push(vec![
                Token::id("a"),
                Token::with(kind, value),
                Token::id("b"),
            ]);
        }
    }
    cases
}

fn blob_with_neighbours() -> Vec<Case> {
    let mut blobs = vec![Token::bare(TK_BLOB)];
    blobs.extend(["", " ", "\n", "X'0a'"].map(|value| Token::with(TK_BLOB, value)));
    let mut cases = Vec::new();
    for blob in blobs {
        for neighbour in neighbours() {
            cases.push(vec![
                Token::id("a"),
                blob.clone(),
                neighbour.clone(),
                Token::id("b"),
            ]);
            cases.push(vec![neighbour, blob.clone(), Token::id("b")]);
        }
    }
    cases
}

fn each_ascii_byte() -> Vec<Case> {
    (0..0x80u8)
        .map(|byte| before_a(&char::from(byte).to_string()))
        .collect()
}

/// The value, then `a`, which shows the bit in the text too.
fn before_a(value: &str) -> Case {
    vec![Token::id(value), Token::id("a")]
}

fn blank_values() -> Vec<Case> {
    let mut values: Vec<String> = BLANKS.iter().map(char::to_string).collect();
    for first in BLANKS {
        values.extend(BLANKS.iter().map(|second| format!("{first}{second}")));
        values.push(format!("{first}{NOT_BLANK}"));
        values.push(format!("{NOT_BLANK}{first}"));
        values.push(format!("{first}{NOT_BLANK}{first}"));
    }
    values.push(BLANKS.iter().collect());
    values.push(format!("{}{NOT_BLANK}", BLANKS.iter().collect::<String>()));
    let mut cases = Vec::new();
    for value in values {
        cases.push(before_a(&value));
        cases.push(vec![
            Token::id("a"),
            Token::with(TK_SEMI, &value),
            Token::id("b"),
        ]);
    }
    cases
}

fn wide_values() -> Vec<Case> {
    let mut cases = Vec::new();
    for c in WIDE {
        cases.push(before_a(&c.to_string()));
        cases.push(before_a(&format!(" {c}\n")));
        cases.push(before_a(&format!("t{c}{c}t")));
    }
    cases
}

fn long_values(random: &mut Random) -> Vec<Case> {
    let lengths = [
        15, 16, 17, 31, 32, 33, 63, 64, 65, 127, 128, 129, 255, 256, 257, 300,
    ];
    let mut cases = Vec::new();
    for length in lengths {
        for draw in [letter, blank, wide, any_kind] {
            cases.push(before_a(&of_length(random, length, draw)));
        }
    }
    cases
}

fn random_streams(random: &mut Random) -> Vec<Case> {
    (0..RANDOM_STREAMS).map(|_| random_stream(random)).collect()
}

fn random_stream(random: &mut Random) -> Case {
    let count = random.between(1, MOST_TOKENS);
    (0..count)
        .map(|_| random_token(random, LONGEST_RANDOM_VALUE))
        .collect()
}
