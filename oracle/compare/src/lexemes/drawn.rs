//! Random texts about the edges of the reading rule.

use crate::fuzz::mutate;
use reading::grow::{tokens_of, Grower};
use reading::printed::LONGEST;
use tokens::judge::text_of;
use tokens::random::Random;

/// What texts are made of: all that begins, goes on or ends a lexeme.
const PIECES: &[&[u8]] = &[
    b"'",
    b"''",
    b"\"",
    b"\"\"",
    b"`",
    b"``",
    b"X",
    b"x",
    b"X'",
    b"x'",
    b"X''",
    b"x'0A'",
    b".",
    b".",
    b"..",
    b"0",
    b"9",
    b"12",
    b"1.",
    b".5",
    b"1.5",
    b"a",
    b"Z",
    b"_",
    b"e5",
    b"$",
    b"$a",
    b"?",
    b"?1",
    b":",
    b":a",
    b"@",
    b"\x80",
    b"\xFF",
    b"\xC3\xA9",
    b"+",
    b"-",
    b"*",
    b"/",
    b"%",
    b"=",
    b"<",
    b">",
    b"!",
    b"&",
    b"|",
    b"~",
    b"->>",
    b"--",
    b",",
    b";",
    b"(",
    b")",
    b"[",
    b"]",
    b" ",
    b" ",
    b"\n",
    b" \n",
];
/// What no lexeme begins with.
const FAILING: &[u8] = b"\t\r\x0B\x0C\0\x7F#^{}\\";
/// One piece in so many is one of those, and one any byte.
const FAILS: usize = 40;
const ANY: usize = 40;
/// Most pieces, and most bytes of a text of any bytes.
const MOST_PIECES: usize = 24;
const MOST_BYTES: usize = 40;
/// One text in so many ends in blanks, and is as long as `cut` takes or longer.
const BLANK_END: usize = 8;
const LONG: usize = 4_000;
/// How many bytes the longest lexemes and blanks have, about.
const LENGTHY: usize = 300;
/// How far the long texts are from the longest that `cut` takes.
const NEAR: usize = 40;

/// Where random texts come from.
pub struct Texts {
    grower: Grower,
}

impl Texts {
    /// The same for every run.
    pub fn new() -> Texts {
        let grower = Grower::new();
        Texts { grower }
    }

    /// A text, and in a few words what it is.
    pub fn drawn(&self, random: &mut Random) -> (&'static str, Vec<u8>) {
        if random.one_in(LONG) {
            return ("about 65,536 bytes, or twice as many", long(random));
        }
        let (part, mut text) = match random.below(16) {
            0..=8 => ("pieces of lexemes", pieces(random, MOST_PIECES)),
            9 | 10 => ("any bytes", any_bytes(random)),
            11 => ("a readable stream's text", self.readable(random)),
            12 | 13 => ("a readable stream's text, changed", self.changed(random)),
            _ => ("a long lexeme among others", lengthy(random)),
        };
        if random.one_in(BLANK_END) {
            text.extend(random.pick::<&[u8]>(&[b" ", b"\n", b"  ", b" \n", b"\n\n "]));
        }
        (part, text)
    }

    /// As the crate writes it.
    fn readable(&self, random: &mut Random) -> Vec<u8> {
        let items = self.grower.stream(random);
        text_of(&tokens_of(&items)).into_bytes()
    }

    /// With up to four changes.
    fn changed(&self, random: &mut Random) -> Vec<u8> {
        let mut text = self.readable(random);
        mutate(random, &mut text);
        text
    }
}

/// Up to so many, one behind the other.
fn pieces(random: &mut Random, most: usize) -> Vec<u8> {
    let count = random.between(0, most);
    (0..count).flat_map(|_| piece(random)).collect()
}

/// Mostly one of a lexeme.
fn piece(random: &mut Random) -> Vec<u8> {
    match () {
        _ if random.one_in(FAILS) => vec![random.pick(FAILING)],
        _ if random.one_in(ANY) => vec![random.byte()],
        _ => random.pick(PIECES).to_vec(),
    }
}

/// Without a look at the rule.
fn any_bytes(random: &mut Random) -> Vec<u8> {
    let length = random.between(0, MOST_BYTES);
    random.bytes(length)
}

/// One piece again and again, with others before and behind it.
fn lengthy(random: &mut Random) -> Vec<u8> {
    let count = random.between(1, LENGTHY);
    let row = random.pick(PIECES).repeat(count);
    let opening: &[u8] = random.pick(&[b"", b"", b"'", b"\"", b"`", b"X'"]);
    let before = pieces(random, 3);
    let behind = pieces(random, MOST_PIECES);
    [&before, opening, &row, &behind].concat()
}

/// About as long as `cut` takes, or twice that, in one row of pieces.
fn long(random: &mut Random) -> Vec<u8> {
    let near = random.between(LONGEST - NEAR, LONGEST + NEAR);
    let length = random.pick(&[near, 2 * near]);
    let mut row = pieces(random, MOST_PIECES);
    row.push(random.pick(b"a, '1"));
    row.into_iter().cycle().take(length).collect()
}
