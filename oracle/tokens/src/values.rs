//! Random values of tokens.

use crate::random::Random;
use crate::token::{known_numbers, Token};

/// Blank for the stream, and 0B, which is not.
pub const BLANKS: [char; 5] = ['\t', '\n', '\x0C', '\r', ' '];
pub const NOT_BLANK: char = '\x0B';

/// Characters of two, three and four bytes, white space and the ends of each range among them.
pub const WIDE: [char; 22] = [
    '\u{80}',
    '\u{85}',
    '\u{A0}',
    '\u{E9}',
    '\u{7FF}',
    '\u{800}',
    '\u{1680}',
    '\u{2003}',
    '\u{2028}',
    '\u{202F}',
    '\u{205F}',
    '\u{20AC}',
    '\u{3000}',
    '\u{D7FF}',
    '\u{E000}',
    '\u{FEFF}',
    '\u{FFFD}',
    '\u{FFFF}',
    '\u{10000}',
    '\u{1F600}',
    '\u{E0020}',
    '\u{10FFFF}',
];

/// Ends that leave no text: cut off after one, two and three bytes of a character, then what no character begins with,
/// then what is broken before the end.
pub const BROKEN_ENDS: [&[u8]; 15] = [
    b"\xC3",
    b"\xE2",
    b"\xE2\x82",
    b"\xF0",
    b"\xF0\x9F",
    b"\xF0\x9F\x98",
    b"\xC0",
    b"\xE0\x9F",
    b"\xED\xA0",
    b"\xF0\x80",
    b"\xF4\x90",
    b"\xC3a",
    b"\xE2\x82a",
    b"\xF0\x9F\x98a",
    b"\xC3\xE2\x82",
];

/// A value, or none, of at most `longest` bytes.
pub fn random_value(random: &mut Random, longest: usize) -> Option<String> {
    match random.below(16) {
        0..=4 => None,
        5 => Some(String::new()),
        6 => Some(filled(random, 3, blank)),
        7 => Some(filled(random, 4, blank_or_not_quite)),
        8..=10 => Some(filled(random, 8, letter)),
        11 => Some(filled(random, 8, ascii)),
        12 => Some(filled(random, 8, wide)),
        13 => Some(filled(random, 12, any_kind)),
        14 => Some(padded(random)),
        _ => Some(long(random, longest)),
    }
}

/// A token of any known number, with a value of at most `longest` bytes or none.
pub fn random_token(random: &mut Random, longest: usize) -> Token {
    let number = match random.below(4) {
        0 => random.pick(&OFTEN),
        _ => random.pick(known_numbers()),
    };
    Token {
        number,
        value: random_value(random, longest),
    }
}

/// A value with newlines: at the start, at the end, together, behind long parts. Of a longer one `longest` bytes are kept.
pub fn lines(random: &mut Random, longest: usize) -> String {
    let newlines = random.between(1, MOST_NEWLINES);
    let mut value = part(random);
    for _ in 0..newlines {
        value.push('\n');
        value.push_str(&part(random));
    }
    shortened(value, longest)
}

/// Most newlines of such a value.
const MOST_NEWLINES: usize = 5;
/// Bytes of a part: none more often, then few, then about as many as are looked at together.
const PARTS: [usize; 16] = [0, 0, 0, 0, 1, 1, 2, 7, 15, 16, 17, 31, 33, 63, 64, 65];

/// What stands between two newlines.
fn part(random: &mut Random) -> String {
    let length = random.pick(&PARTS);
    let draw = random.pick(&[letter, letter, wide, blank_or_not_quite, any_kind]);
    of_length(random, length, draw)
}

/// As many whole characters of the value as `longest` bytes have room for.
fn shortened(mut value: String, longest: usize) -> String {
    let fits = |&(at, c): &(usize, char)| at + c.len_utf8() <= longest;
    let kept = value.char_indices().take_while(fits).last();
    value.truncate(kept.map_or(0, |(at, c)| at + c.len_utf8()));
    value
}

/// A token of any known number whose value has newlines.
pub fn token_with_lines(random: &mut Random, longest: usize) -> Token {
    let value = Some(lines(random, longest));
    Token {
        value,
        ..random_token(random, longest)
    }
}

/// The kinds with rules of their own, and ID: SEMI LP RP COMMA ID DOT BLOB LBRACKET RBRACKET.
const OFTEN: [u16; 9] = [1, 22, 23, 25, 60, 142, 154, 189, 190];

/// A string of exactly `length` bytes, with a letter where a wide character does not fit.
pub fn of_length(random: &mut Random, length: usize, draw: fn(&mut Random) -> char) -> String {
    let mut value = String::with_capacity(length);
    while value.len() < length {
        let next = draw(random);
        let fits = value.len() + next.len_utf8() <= length;
        value.push(if fits { next } else { 'q' });
    }
    value
}

pub fn blank(random: &mut Random) -> char {
    random.pick(&BLANKS)
}

pub fn letter(random: &mut Random) -> char {
    char::from(b'a' + random.below(26) as u8)
}

pub fn wide(random: &mut Random) -> char {
    if random.one_in(2) {
        return random.pick(&WIDE);
    }
    loop {
        let code = random.between(0x80, 0x10FFFF) as u32;
        match char::from_u32(code >> random.below(11)) {
            Some(c) if c.len_utf8() > 1 => return c,
            _ => {}
        }
    }
}

pub fn any_kind(random: &mut Random) -> char {
    let draw = random.pick(&[blank, letter, ascii, wide, blank_or_not_quite]);
    draw(random)
}

fn ascii(random: &mut Random) -> char {
    char::from(random.below(0x80) as u8)
}

fn blank_or_not_quite(random: &mut Random) -> char {
    match random.below(4) {
        0 => NOT_BLANK,
        _ => blank(random),
    }
}

fn filled(random: &mut Random, most: usize, draw: fn(&mut Random) -> char) -> String {
    let count = random.between(1, most);
    (0..count).map(|_| draw(random)).collect()
}

/// One character with blanks before or after it.
fn padded(random: &mut Random) -> String {
    let before = filled(random, 3, blank);
    let after = if random.one_in(2) {
        filled(random, 3, blank)
    } else {
        String::new()
    };
    format!("{before}{}{after}", any_kind(random))
}

/// Any length up to `longest`, short ones more often.
fn long(random: &mut Random, longest: usize) -> String {
    let most = longest >> random.below(8);
    let length = random.between(0, most);
    let draw = random.pick(&[blank, letter, wide, any_kind]);
    of_length(random, length, draw)
}
