//! That Rust's check tells what request ii asks for: a text is cut off exactly if it ends with a proper beginning of some
//! character.

use std::collections::HashSet;
use tokens::encoding::{text_in, CUT_OFF, LONGEST, NOT_UTF8};

/// All proper beginnings, not empty, of all characters.
fn beginnings() -> HashSet<Vec<u8>> {
    let mut beginnings = HashSet::new();
    for character in '\0'..=char::MAX {
        let mut bytes = [0; 4];
        let encoded = character.encode_utf8(&mut bytes).as_bytes();
        for length in 1..encoded.len() {
            if !beginnings.contains(&encoded[..length]) {
                beginnings.insert(encoded[..length].to_vec());
            }
        }
    }
    beginnings
}

/// The number follows from the bytes at the place, and before it there is text.
fn hold(bytes: &[u8], beginnings: &HashSet<Vec<u8>>) {
    let Err((number, place)) = text_in(bytes) else {
        return;
    };
    let (before, from) = bytes.split_at(place as usize);
    assert!(text_in(before).is_ok(), "{bytes:02x?}");
    let cut_off = beginnings.contains(from);
    let expected = if cut_off { CUT_OFF } else { NOT_UTF8 };
    assert_eq!(number, expected, "{bytes:02x?}");
}

#[test]
fn cut_off_is_a_beginning_of_a_character() {
    let beginnings = beginnings();
    for length in 1..=3 {
        for number in 0..1_u32 << (8 * length) {
            let bytes = number.to_be_bytes();
            hold(&bytes[bytes.len() - length..], &beginnings);
        }
    }
}

#[test]
fn each_beginning_is_cut_off_and_a_byte_more_may_mend_it() {
    let beginnings = beginnings();
    for beginning in &beginnings {
        let after_text = [b"a\xC3\xA9", &beginning[..]].concat();
        assert_eq!(text_in(&after_text), Err((CUT_OFF, 3)));
        for byte in 0..=u8::MAX {
            hold(&[&beginning[..], &[byte]].concat(), &beginnings);
        }
    }
}

#[test]
fn the_examples_of_the_reading() {
    assert_eq!(text_in(b"\xE2\x82"), Err((CUT_OFF, 0)));
    for never in [&b"\xF0\x80"[..], b"\xED\xA0", b"\xC0", b"\xE2\x82a"] {
        assert_eq!(text_in(never), Err((NOT_UTF8, 0)), "{never:02x?}");
    }
    assert_eq!(text_in(b""), Ok(""));
}

#[test]
fn a_text_that_is_too_long_is_not_looked_at() {
    let mut long = vec![b'x'; LONGEST];
    long[LONGEST - 1] = 0xC3;
    assert_eq!(text_in(&long), Err((CUT_OFF, LONGEST as u32 - 1)));
    long.push(0xC3);
    assert_eq!(text_in(&long), Err((NOT_UTF8, LONGEST as u32)));
}
