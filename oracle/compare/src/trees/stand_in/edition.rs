//! The SQLite edition (request viii), with faults that can be planted in it. A without-rowid text is cut at its first word.

use super::strict::{placed, Placed};
use crate::faults::{planted, Fault};
use entries::interpret::{corners, Corners};
use model::grammar::{NONE, TABLE_BODY, TEXT};
use model::options::Edition;
use model::record::{Record, SIZE};
use tokens::encoding::{Refusal, CUT_OFF, NOT_UTF8};

/// Which children of a table's body are its options.
const FIRST: u16 = 2;
const SECOND: u16 = 3;

/// The edition of a call.
pub fn of(options: u32) -> Edition {
    let sqlite = match options {
        _ if planted(Fault::SwitchIsEdition) => options & 3 != 0,
        _ if planted(Fault::OtherBitIsEdition) => options & 2 != 0 || options >> 31 == 1,
        _ if planted(Fault::OtherBitsTurnEditionOff) => options & !1 == 2,
        _ => options & 2 != 0,
    };
    match sqlite && !planted(Fault::EditionNeverOn) {
        true => Edition::Sqlite,
        false => Edition::Crate,
    }
}

/// The answer in this edition, from the one without it.
pub fn refusal(edition: Edition, tree: &[u8], text: &[u8], without: Refusal) -> Refusal {
    let (number, place) = without;
    let crates = edition == Edition::Crate && !planted(Fault::TenInCrate);
    if crates || planted(Fault::TenNever) || matches!(number, 1 | NOT_UTF8 | CUT_OFF) {
        return without;
    }
    let later = number == 6 && planted(Fault::TenAfterDepth)
        || number == 7 && planted(Fault::TenAfterCount)
        || number == 9 && planted(Fault::TenAfterNine)
        || number > 0 && planted(Fault::TenAfterAll);
    if later {
        return without;
    }
    let records = tree.len() / SIZE;
    let looked_at = match number {
        _ if planted(Fault::TenBeforeAll) => records,
        0 => records,
        5 if planted(Fault::TenBeforePart) => place as usize + 1,
        9 if planted(Fault::TenBeforeNine) => records,
        _ => place as usize,
    };
    let placed = placed(tree, looked_at);
    let mut others = placed.iter().filter(|placed| says_otherwise(placed, text));
    let found = match planted(Fault::LastRowidOnly) {
        true => others.next_back(),
        false => others.next(),
    };
    found.map_or(without, |found| (10, told_place(found)))
}

fn told_place(found: &Placed) -> u32 {
    let body = found.above.map_or(0, |(_, index)| index);
    let index = match planted(Fault::PlaceOfBody) {
        true => body,
        false => found.index,
    };
    index as u32
}

fn says_otherwise(placed: &Placed, text: &[u8]) -> bool {
    let Record {
        kind,
        start,
        length,
        ..
    } = placed.record;
    let start = (start as usize).min(text.len());
    let end = (start + length as usize).min(text.len());
    let part = String::from_utf8_lossy(&text[start..end]);
    let child = placed.above.map(|(kind, _)| (kind, placed.child));
    match (child, kind) {
        (Some((TABLE_BODY, FIRST)), NONE) => planted(Fault::NoneRefused),
        (Some((TABLE_BODY, FIRST)), TEXT) => !taken(&part, placed.record),
        (Some((TABLE_BODY, SECOND)), TEXT) => planted(Fault::SecondLookedAt) && !is_read(&part),
        _ => false,
    }
}

fn taken(part: &str, record: Record) -> bool {
    if planted(Fault::ZeroPartTaken) && (record.start, record.length) == (0, 0) {
        return true;
    }
    is_read(part) || planted(Fault::EmptyTaken) && part.is_empty()
}

fn is_white(c: char) -> bool {
    match c {
        ' ' => true,
        _ if planted(Fault::AsciiWhiteOnly) => c.is_ascii_whitespace(),
        _ => c.is_whitespace(),
    }
}

/// Word for word from the left.
fn is_read(text: &str) -> bool {
    let rest = text.trim_start_matches(is_white);
    let Some((first, rest)) = rest.split_once(is_white) else {
        return planted(Fault::OnePartTaken) && same(text.trim_matches(is_white), "WITHOUT");
    };
    if planted(Fault::TwoSpacesRefused) && rest.starts_with(is_white) {
        return false;
    }
    let rest = rest.trim_start_matches(is_white);
    let (second, rest) = rest.split_once(is_white).unwrap_or((rest, ""));
    let end = rest.trim_start_matches(is_white).is_empty() || planted(Fault::ThreePartsTaken);
    let first = same(first, "WITHOUT") || planted(Fault::AnyFirstTaken);
    let second = same(second, "ROWID") || planted(Fault::AnySecondTaken) && !second.is_empty();
    first && second && end
}

fn same(part: &str, word: &str) -> bool {
    if planted(Fault::LowercaseRefused) {
        return part == word;
    }
    if planted(Fault::MixedCaseRefused) {
        return part == word || part == word.to_lowercase();
    }
    if planted(Fault::BeginningTaken) {
        return part.to_uppercase().starts_with(word);
    }
    if planted(Fault::DotlessTaken) {
        return part.to_uppercase() == word;
    }
    part.eq_ignore_ascii_case(word)
}

/// What single texts write in this edition.
pub fn corners_of(edition: Edition) -> Corners {
    let mut of_edition = corners(edition);
    let sqlite = edition == Edition::Sqlite;
    if sqlite && planted(Fault::CommaWithOne) {
        of_edition.comma = |first, second| first || second;
    }
    if sqlite && planted(Fault::NoComma) || !sqlite && planted(Fault::CommaInCrate) {
        of_edition.comma = corners(other(edition)).comma;
    }
    if sqlite && planted(Fault::QuoteLeftSingle) || !sqlite && planted(Fault::OperatorQuotesDoubled)
    {
        of_edition.quoted = corners(other(edition)).quoted;
    }
    if sqlite && planted(Fault::FirstQuoteOnly) {
        of_edition.quoted = |text| format!("'{}'", text.replacen('\'', "''", 1));
    }
    if sqlite && planted(Fault::EachQuoteDoubled) {
        of_edition.quoted = |text| {
            let text = text.replace('\'', "''");
            format!("'{}'", text.replace('"', "\"\""))
        };
    }
    if sqlite && planted(Fault::PairLeftAsItIs) {
        of_edition.quoted = |text| {
            let halves: Vec<String> = text
                .split("''")
                .map(|half| half.replace('\'', "''"))
                .collect();
            format!("'{}'", halves.join("''"))
        };
    }
    if sqlite && planted(Fault::SecondInCapitals) {
        of_edition.rowid = str::to_uppercase;
    }
    of_edition
}

fn other(edition: Edition) -> Edition {
    match edition {
        Edition::Crate => Edition::Sqlite,
        Edition::Sqlite => Edition::Crate,
    }
}
