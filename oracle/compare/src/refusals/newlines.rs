//! Newlines in values: every short value, and every place in a long one.

use super::{check, plain, Checked, ID};
use crate::report::Counts;
use tokens::token::{known_numbers, VALUE_PRESENT};

const SELECT: u16 = 139;
/// Room for any spelling, a space and a short value.
const ROOM: usize = 40;

/// Each token with short values, then long values of some tokens.
pub fn sweep(counts: &mut Counts) -> Checked {
    every_token(counts)?;
    every_place(counts)
}

/// Each known token with every short value, behind either bit.
fn every_token(counts: &mut Counts) -> Checked {
    let values = short_values();
    for &number in known_numbers() {
        for value in &values {
            for spaced in [false, true] {
                let call = plain(spaced, number | VALUE_PRESENT, value.as_bytes(), ROOM);
                check("tokens with newlines", &call, counts)?;
            }
        }
    }
    Ok(())
}

/// All values of up to four characters, each a newline, a letter, a wide one or the blank that is no newline.
fn short_values() -> Vec<String> {
    const CHARACTERS: [&str; 4] = ["\n", "a", "\u{E9}", "\r"];
    let mut values = vec![String::new()];
    let mut longest = values.clone();
    for _ in 0..4 {
        let longer = |value: &String| CHARACTERS.map(|next| format!("{value}{next}"));
        longest = longest.iter().flat_map(longer).collect();
        values.extend(longest.clone());
    }
    values
}

/// A newline at each place of a long value, alone and with another that stands 0 to 2 bytes behind or at the end.
fn every_place(counts: &mut Counts) -> Checked {
    const LONG: [usize; 9] = [15, 16, 17, 31, 33, 63, 64, 65, 200];
    for length in LONG {
        for first in 0..length {
            for second in [first, first + 1, first + 2, length - 1] {
                for (token, fill) in [(ID, &b"x"[..]), (ID, b"\xC3\xA9"), (SELECT, b"x")] {
                    let value = with_newlines(length, fill, [first, second]);
                    let call = plain(false, token | VALUE_PRESENT, &value, length + ROOM);
                    check("places of newlines", &call, counts)?;
                }
            }
        }
    }
    Ok(())
}

/// So many bytes of a character again and again, with a letter where it does not fit, and newlines at these places.
fn with_newlines(length: usize, fill: &[u8], places: [usize; 2]) -> Vec<u8> {
    let mut value = Vec::with_capacity(length);
    while value.len() < length {
        let (start, end) = (value.len(), value.len() + fill.len());
        let fits = end <= length && !places.iter().any(|place| (start..end).contains(place));
        match places.contains(&start) {
            true => value.push(b'\n'),
            false if fits => value.extend(fill),
            false => value.push(b'x'),
        }
    }
    value
}
