//! A second reading of request viii, written apart from the model's: a without-rowid text is read byte by byte, and the order of
//! the refusals comes from the answer in the crate's edition.

use model::damage::Case;
use model::grammar::TEXT;
use model::record::Record;
use tokens::encoding::{Refusal, CUT_OFF, NOT_UTF8};

/// The kind of a table's body, and which of its children is the without-rowid text.
const BODY: u16 = 98;
const THIRD: u16 = 2;

/// How many bytes the white space at the front takes.
fn white(mut bytes: &[u8]) -> usize {
    let all = bytes.len();
    loop {
        let length = match bytes {
            [0x09..=0x0D | 0x20, ..] => 1,
            [0xC2, 0x85 | 0xA0, ..] => 2,
            [0xE1, 0x9A, 0x80, ..] => 3,
            [0xE2, 0x80, 0x80..=0x8A | 0xA8 | 0xA9 | 0xAF, ..] => 3,
            [0xE2, 0x81, 0x9F, ..] => 3,
            [0xE3, 0x80, 0x80, ..] => 3,
            _ => return all - bytes.len(),
        };
        bytes = &bytes[length..];
    }
}

/// What follows a word, each letter of which is there as it is given or as a capital.
fn behind<'a>(bytes: &'a [u8], word: &[u8]) -> Option<&'a [u8]> {
    word.iter().try_fold(bytes, |rest, letter| match rest {
        [byte, rest @ ..] if byte == letter || *byte == letter - 32 => Some(rest),
        _ => None,
    })
}

/// Whether the text is WITHOUT and ROWID, in any case, with white space between and around.
pub fn is_read(text: &[u8]) -> bool {
    let words = || {
        let rest = behind(&text[white(text)..], b"without")?;
        let gap = white(rest);
        let rest = behind(&rest[gap..], b"rowid")?;
        Some(gap > 0 && white(rest) == rest.len())
    };
    words().unwrap_or(false)
}

/// The answer in the SQLite edition, from the one in the crate's edition: a text that says something else comes first if its
/// record comes before the refused one. What is refused before the records stays.
pub fn with_edition(case: &Case, without: Refusal) -> Refusal {
    let (number, place) = without;
    let looked_at = match number {
        0 => case.records(),
        1 | NOT_UTF8 | CUT_OFF => 0,
        _ => place as usize,
    };
    let other = texts(&case.tree, looked_at).into_iter().find(|&index| {
        let record = Record::read(&case.tree, index).expect("a record that was looked at");
        !is_read(&case.text[record.start as usize..][..record.length as usize])
    });
    other.map_or(without, |index| (10, index as u32))
}

/// Which of so many records are without-rowid texts: below a record of each kind its children stand in order, each with all
/// below it.
fn texts(tree: &[u8], records: usize) -> Vec<usize> {
    let mut found = vec![];
    let mut index = 0;
    while index < records {
        below(tree, records, &mut index, None, &mut found);
    }
    found
}

fn below(
    tree: &[u8],
    records: usize,
    index: &mut usize,
    child_of: Option<(u16, u16)>,
    found: &mut Vec<usize>,
) {
    if *index >= records {
        return;
    }
    let record = Record::read(tree, *index).expect("a record that was looked at");
    if record.kind == TEXT && child_of == Some((BODY, THIRD)) {
        found.push(*index);
    }
    *index += 1;
    for child in 0..record.children {
        below(tree, records, index, Some((record.kind, child)), found);
    }
}
