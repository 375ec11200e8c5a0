//! The text as a whole.

use super::Case;
use crate::record::MOST_BYTES;
use tokens::random::Random;

/// Sequences that are not UTF-8, whatever character follows. Some are cut off where nothing follows.
pub const BAD: [&[u8]; 28] = [
    &[0x80],
    &[0xBF],
    &[0xC0, 0x80],
    &[0xC1, 0xBF],
    &[0xC2],
    &[0xC2, 0x7F],
    &[0xC2, 0xC0],
    &[0xDF, 0x20],
    &[0xE0, 0x80, 0x80],
    &[0xE0, 0x9F, 0xBF],
    &[0xE0, 0xA0],
    &[0xE1, 0x80, 0x7F],
    &[0xE2, 0x82, 0xC0],
    &[0xED, 0xA0, 0x80],
    &[0xED, 0xBF, 0xBF],
    &[0xEF, 0xBF],
    &[0xF0, 0x80, 0x80, 0x80],
    &[0xF0, 0x8F, 0xBF, 0xBF],
    &[0xF0, 0x90, 0x80],
    &[0xF1, 0x80, 0x80, 0x7F],
    &[0xF3, 0x80, 0x41, 0x80],
    &[0xF4, 0x90, 0x80, 0x80],
    &[0xF4, 0x8F, 0xBF],
    &[0xF5, 0x80, 0x80, 0x80],
    &[0xF8, 0x88, 0x80, 0x80, 0x80],
    &[0xFC],
    &[0xFE],
    &[0xFF],
];

/// Puts a bad sequence in, cuts inside a character, or changes one byte.
pub fn bad(random: &mut Random, case: &mut Case) {
    let at = random.between(0, case.text.len());
    match random.below(4) {
        0 if at < case.text.len() => case.text[at] = random.byte(),
        1 => {
            let sequence = random.pick(&["\u{E9}", "\u{20AC}", "\u{1F600}"]).as_bytes();
            let keep = random.between(1, sequence.len() - 1);
            case.text.extend(&sequence[..keep]);
        }
        _ => {
            let sequence = random.pick(&BAD);
            case.text.splice(at..at, sequence.iter().copied());
        }
    }
}

pub fn cut_short(random: &mut Random, case: &mut Case) {
    let keep = random.between(0, case.text.len());
    case.text.truncate(keep);
}

pub fn emptied(_: &mut Random, case: &mut Case) {
    case.text.clear();
}

/// Fills up with letters, the last character sometimes a wide one.
pub fn filled_to(random: &mut Random, text: &mut Vec<u8>, length: usize) {
    let last = random.pick(&["z", "\u{E9}", "\u{20AC}", "\u{1F600}"]);
    text.truncate(text.len().min(length));
    let room = length - text.len();
    let letters = room.saturating_sub(last.len());
    text.extend(vec![b'x'; letters]);
    match room >= last.len() {
        true => text.extend(last.as_bytes()),
        false => text.extend(vec![b'x'; room]),
    }
}

pub fn at_the_limit(random: &mut Random, case: &mut Case) {
    let length = random.between(MOST_BYTES - 1, MOST_BYTES + 1);
    filled_to(random, &mut case.text, length);
    if random.one_in(3) {
        super::parts::empty_at_the_end(random, case);
    }
}

pub fn over_and_bad(random: &mut Random, case: &mut Case) {
    let over = random.between(1, 3);
    filled_to(random, &mut case.text, MOST_BYTES + over);
    case.text[0] = 0xFF;
}
