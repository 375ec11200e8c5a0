//! The fixed list of texts for the gate: every rule of section 5 at its edge, and what `cut` prints for each.

mod pieces;

use crate::listed;
use crate::printed::{printed, LONGEST};
use std::collections::BTreeSet;
use std::fs;
use std::io;
use tokens::cases;
use tokens::judge::text_of;

/// S1 to S12 of section 6.
const DOCUMENTED: usize = 12;

/// The texts, and the lines of each followed by an empty one.
pub fn write(input: &str, expected: &str) -> io::Result<()> {
    let texts = all();
    let bytes: Vec<u8> = texts.iter().flat_map(|text| lent(text)).collect();
    let lines: String = texts.iter().map(|text| printed(text) + "\n").collect();
    eprintln!("{} cases, {} bytes", texts.len(), bytes.len());
    fs::write(input, bytes)?;
    fs::write(expected, lines)
}

/// The length in four bytes, and the text.
fn lent(text: &[u8]) -> Vec<u8> {
    let length = u32::try_from(text.len()).expect("a length of four bytes");
    [&length.to_le_bytes(), text].concat()
}

/// All texts of the list, short ones first, each once.
pub fn all() -> Vec<Vec<u8>> {
    let mut texts = documented();
    texts.extend(listed::texts().map(<[u8]>::to_vec));
    texts.extend(pieces::all());
    texts.extend(longer());
    let mut seen = BTreeSet::new();
    texts.retain(|text| seen.insert(text.clone()));
    texts
}

/// What the crate writes for the cases of section 6.
fn documented() -> Vec<Vec<u8>> {
    let streams = cases::all().into_iter().take(DOCUMENTED);
    streams
        .map(|tokens| text_of(&tokens).into_bytes())
        .collect()
}

/// Texts whose places have more digits, up to the longest text and one byte more.
fn longer() -> Vec<Vec<u8>> {
    let mut texts = vec![all_in_one()];
    for digits in [10, 100, 1_000, 10_000] {
        texts.push(blanks_before(digits - 1, b"a b"));
        texts.push(blanks_before(digits - 1, b"'"));
    }
    texts.push([b"'".to_vec(), b"''".repeat(500), b"'".to_vec()].concat());
    texts.push([b"'".to_vec(), b"''".repeat(500)].concat());
    texts.push([b"9".repeat(300), b".".to_vec(), b"9".repeat(300)].concat());
    texts.push(b"(),;.[]".repeat(40));
    texts.push(b"a\n".repeat(130));
    texts.push(b"\xE2\x82\xAC$_".repeat(200));
    texts.push(blanks_before(LONGEST - 1, b"a"));
    texts.push(blanks_before(LONGEST, b"a"));
    texts
}

/// So many blanks, and this.
fn blanks_before(count: usize, behind: &[u8]) -> Vec<u8> {
    let blanks = b" \n".iter().copied().cycle().take(count);
    blanks.chain(behind.iter().copied()).collect()
}

/// The listed texts that can be read, one behind the other, and one that cannot at the end.
fn all_in_one() -> Vec<u8> {
    let readable = listed::texts().filter(|text| !printed(text).contains("stop"));
    let mut text = readable.collect::<Vec<_>>().join(&b' ');
    text.extend(b"\t");
    text
}
