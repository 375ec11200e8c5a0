//! Without-rowid texts that SQLite reads, or not, with options (request viii).

use super::sources::subs;
use super::{edited, faults_at, faults_of_the_whole, of};
use crate::damage::Case;
use crate::grammar::{CHECK, LIST, NONE, OPERATOR, RUN, TABLE_BODY, TEXT, TOKEN};
use crate::options::{MEANT, SETTINGS, SQLITE, STRICT};
use crate::record::{Record, VALUE_PRESENT};

/// Texts whose two parts are WITHOUT and ROWID.
pub const READ: [&str; 16] = [
    "WITHOUT ROWID",
    "without rowid",
    "Without RowId",
    "wITHOUT rOWID",
    "WITHOUT  ROWID",
    "WITHOUT\tROWID",
    "WITHOUT\r\nROWID",
    " WITHOUT ROWID",
    "WITHOUT ROWID\n",
    "\u{A0}without\u{3000}rowid\u{85}",
    "WITHOUT\u{B}ROWID",
    "WITHOUT\u{1680}ROWID",
    "WITHOUT\u{200A}ROWID",
    "WITHOUT\u{2028}ROWID",
    "WITHOUT\u{202F}ROWID",
    "WITHOUT\u{205F}ROWID",
];

/// Texts that have other parts, fewer or more.
pub const OTHER: [&str; 30] = [
    "",
    " ",
    "\u{A0}\u{3000}",
    "WITHOUT",
    "ROWID",
    "WITHOUTROWID",
    "WITH OUT ROWID",
    "ROWID WITHOUT",
    "WITHOUT WITHOUT",
    "ROWID ROWID",
    "WITHOUT ROWID x",
    "x WITHOUT ROWID",
    "WITHOUT ROWID ROWID",
    "a b",
    "WITHOUT ROW",
    "WITHOUT ROWIDS",
    "WITHOUT R0WID",
    "WITHOU ROWID",
    "WITHOUTX ROWID",
    "WITHOUT\0ROWID",
    "WITHOUT\u{1F}ROWID",
    "WITHOUT\u{200B}ROWID",
    "WITHOUT \u{200B}ROWID",
    "\u{FEFF}WITHOUT ROWID",
    "w\u{131}thout rowid",
    "WITHOUT ROW\u{130}D",
    "\u{FF37}ITHOUT ROWID",
    "WITHOUT ROWID,",
    "WITHOUT ROWID;",
    "'WITHOUT ROWID'",
];

/// Bits that mean nothing: one, and all.
const OTHERS: [u32; 3] = [1 << 2, 1 << 31, !MEANT];

pub fn cases() -> Vec<Case> {
    let mut cases = Vec::new();
    let texts = READ.iter().chain(&OTHER);
    cases.extend(texts.map(|text| body(text).with(SQLITE)));
    cases.extend(settings());
    cases.extend(parts());
    cases.extend(places());
    cases.extend(faults_at_the_text());
    cases.extend(faults_elsewhere());
    cases.extend(other_texts());
    cases
}

fn list(count: u16) -> Record {
    Record::new(LIST, count)
}

fn none() -> Record {
    Record::new(NONE, 0)
}

/// A table's body with this without-rowid text, record 3, which is all of the text.
fn body(text: &str) -> Case {
    let records = [
        Record::new(TABLE_BODY, 4),
        list(0),
        list(0),
        Record::part(TEXT, 0, 0, text.len() as u32),
        none(),
    ];
    of(&records, text.as_bytes())
}

/// Another text with each setting, alone and with bits that mean nothing; one that is read with all bits.
fn settings() -> Vec<Case> {
    let alone = SETTINGS.map(|options| body("a b").with(options));
    let beside = OTHERS
        .into_iter()
        .flat_map(|others| [others, SQLITE | others]);
    let beside = beside.map(|options| body("a b").with(options));
    let read = body("without rowid").with(u32::MAX);
    alone.into_iter().chain(beside).chain([read]).collect()
}

/// The part alone is read; an empty one is 10 wherever it stands, also where bytes 8 to 15 are zero.
fn parts() -> Vec<Case> {
    let part = |text: &str, start: usize, length: usize| {
        let named = |record: &mut Record| {
            (record.start, record.length) = (start as u32, length as u32);
        };
        edited(&body(text), 3, named).with(SQLITE)
    };
    vec![
        part("x WITHOUT ROWID y", 2, 13),
        part("xWITHOUT ROWIDy", 1, 13),
        part("WITHOUT ROWID", 0, 12),
        part("WITHOUT ROWID", 1, 12),
        part("WITHOUT ROWID", 0, 0),
        part("WITHOUT ROWID", 13, 0),
        part("WITHOUT ROWID", 7, 0),
        part("", 0, 0),
    ]
}

/// A LIST of bodies with these options, NONE where there is none: the first text of body n is record 5n + 4.
fn bodies(options: &[(Option<&str>, Option<&str>)]) -> Case {
    let mut text = Vec::new();
    let mut records = vec![list(options.len() as u16)];
    for (first, second) in options {
        records.extend([Record::new(TABLE_BODY, 4), list(0), list(0)]);
        for option in [first, second] {
            records.push(match option {
                None => none(),
                Some(part) => Record::part(TEXT, 0, text.len() as u32, part.len() as u32),
            });
            text.extend(option.unwrap_or_default().bytes());
        }
    }
    of(&records, &text)
}

/// The first such text is the place; NONE is fine, and the second option is not looked at.
fn places() -> Vec<Case> {
    let read = Some("WITHOUT ROWID");
    let other = Some("WITHOUT");
    let lists = [
        bodies(&[(read, None), (other, None)]),
        bodies(&[(other, None), (other, None)]),
        bodies(&[(None, other), (other, None)]),
        bodies(&[(None, None), (None, other)]),
        bodies(&[(read, read), (read, Some(""))]),
        bodies(&[(read, other), (None, Some(""))]),
        bodies(&[(Some(""), read), (read, None)]),
    ];
    lists.map(|case| case.with(SQLITE)).into()
}

/// Another text whose record has a fault of its own, which comes first.
fn faults_at_the_text() -> Vec<Case> {
    // Two bytes for the last character, so that an end can stand inside it.
    let other = body("a \u{E9}").with(SQLITE);
    faults_at(&other, 3)
}

/// Another text, and a fault before it, behind it, or of the whole.
fn faults_elsewhere() -> Vec<Case> {
    let other = bodies(&[(Some("a"), None), (None, Some("b"))]).with(SQLITE);
    let (text, last) = (4, 10);
    let no_mark = |record: &mut Record| record.mark = [0, 0];
    let flagged = |record: &mut Record| record.flags = 1 << 9;
    let outside = |record: &mut Record| record.length = 1 << 20;
    let mut cases = vec![
        edited(&other, text - 1, no_mark),
        edited(&other, text - 1, flagged),
        edited(&other, 0, flagged),
        edited(&other, text + 1, no_mark),
        edited(&other, text + 1, flagged),
        edited(&other, last, outside),
    ];
    cases.extend(faults_of_the_whole(&other, &[text, text + 1, last]));
    cases.extend(with_open_source());
    cases.extend(with_depth());
    cases
}

/// A LIST of another text and of a CHECK that is left open, in either order, with each setting.
fn with_open_source() -> Vec<Case> {
    let records = body("a'").tree;
    let check = [
        Record::new(CHECK, 2),
        Record::new(RUN, 0),
        Record::part(TEXT, 0, 0, 2),
    ];
    let check: Vec<u8> = check.iter().flat_map(|record| record.bytes()).collect();
    let both = list(2).bytes().to_vec();
    let orders = [[&both, &records, &check], [&both, &check, &records]];
    let mut cases = Vec::new();
    for order in orders {
        let tree = order.into_iter().flatten().copied().collect::<Vec<u8>>();
        let case = Case::from((tree, b"a'".to_vec()));
        cases.extend([STRICT, SQLITE, MEANT].map(|options| case.clone().with(options)));
    }
    cases
}

/// A LIST of another text and of a chain that is too deep, in either order; the same with a chain that is not.
fn with_depth() -> Vec<Case> {
    let other = body("a").with(SQLITE);
    let mut cases = Vec::new();
    for depth in [64, 65] {
        let chain = subs(depth - 1);
        let both = list(2).bytes().to_vec();
        for parts in [
            [&both, &other.tree, &chain.tree],
            [&both, &chain.tree, &other.tree],
        ] {
            let tree = parts.into_iter().flatten().copied().collect();
            cases.push(Case {
                tree,
                ..other.clone()
            });
        }
    }
    cases
}

/// The same words in places that are not looked at.
fn other_texts() -> Vec<Case> {
    let other = || Record::part(TEXT, 0, 0, 2);
    let trees: [&[Record]; 5] = [
        &[
            Record::new(TABLE_BODY, 4),
            list(0),
            list(0),
            none(),
            other(),
        ],
        &[Record::new(OPERATOR, 2), other(), other()],
        &[Record::new(CHECK, 2), Record::new(RUN, 0), other()],
        &[Record::new(61, 1), other()],
        // A RUN for the body.
        &[
            Record::new(38, 2),
            Record::new(RUN, 0),
            Record::new(RUN, 1),
            Record::part(TOKEN, 60 | VALUE_PRESENT, 0, 2),
        ],
    ];
    let case = |records: &[Record]| of(records, b"''").with(SQLITE);
    trees.into_iter().map(case).collect()
}
