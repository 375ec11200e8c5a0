//! That a position is what request ix says, counted byte by byte.

use tokens::position::Position;
use tokens::random::Random;
use tokens::values::lines;

const TEXTS: usize = 2_000;
const LONGEST: usize = 200;
const SEED: u64 = 1;

/// A text and the line and column behind it, by hand.
const BY_HAND: [(&str, u64, u64); 9] = [
    ("", 0, 0),
    ("abc", 0, 3),
    ("\n", 1, 0),
    ("\nab", 1, 2),
    ("ab\n", 1, 0),
    ("a\n\nb", 2, 1),
    ("\u{E9}\n\u{20AC}", 1, 3),
    ("a\rb\x0Bc", 0, 5),
    ("BEGIN\nx;\nEND", 2, 3),
];

/// The same, as a reader goes through the bytes.
fn counted(text: &[u8]) -> Position {
    let mut position = Position::default();
    for byte in text {
        match byte {
            b'\n' => {
                position = Position {
                    line: position.line + 1,
                    column: 0,
                }
            }
            _ => position.column += 1,
        }
    }
    position
}

#[test]
fn positions_by_hand() {
    for (text, line, column) in BY_HAND {
        assert_eq!(
            Position::behind(text.as_bytes()),
            Position { line, column },
            "{text:?}"
        );
    }
}

#[test]
fn a_text_in_two_parts_is_one_text() {
    let mut random = Random::new(SEED);
    for _ in 0..TEXTS {
        let text = lines(&mut random, LONGEST).into_bytes();
        assert_eq!(Position::behind(&text), counted(&text));
        for at in 0..=text.len() {
            let (before, added) = text.split_at(at);
            assert_eq!(Position::behind(before).after(added), counted(&text));
        }
    }
}
