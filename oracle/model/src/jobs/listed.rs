//! The fixed list of lists of jobs: every rule of request i at its edge.

use super::shelf::Shelf;
use super::{outcome, Answer, List, Part};
use crate::damage::Case;
use crate::editions::{body_with, check, operator_with, table_with, type_with};
use crate::encode::Encode;
use crate::files::{self, hex};
use crate::fixed::drop_type;
use crate::grow;
use crate::options::{MEANT, SETTINGS, SQLITE};
use crate::record::{MOST_BYTES, SIZE};
use std::io::{self, Write};
use tokens::random::Random;
use tokens::token::Token;
use turso_parser::ast::{Cmd, CreateTableBody, Stmt};

/// Every byte of the output before the call.
pub const BEFORE: u8 = 0xAA;
/// Room that is ample for each list.
const AMPLE: usize = 8_192;
/// A text of up to so many bytes is written to a draft first (docs/PERFORMANCE.md): the ways may part there.
const DRAFT: usize = 1_024;
/// What makes a text never UTF-8, and what makes it cut off.
const NEVER: &[u8] = b"\xFF";
const CUT: &[u8] = b"\xE2\x82";
/// A level more than a tree may have.
const TOO_DEEP: usize = 65;
const SEED: u64 = 1;
/// The bytes of a record.
const RECORD: u64 = SIZE as u64;
/// Bits of the options that mean nothing: one, and all.
const OTHERS: [u32; 2] = [1 << 31, !MEANT];

/// A list with what its trees come to, and the room of the output.
#[derive(Clone)]
pub struct Listed {
    pub list: List,
    pub answers: Vec<Answer>,
    pub room: usize,
}

/// In the order in which they are stored.
pub fn all() -> Vec<Listed> {
    [
        few(),
        together(),
        outside(),
        outside_of_a_broken_text(),
        refused(),
        rooms(),
        rooms_of_long_texts(),
        options(),
        texts(),
        long_buffers(),
    ]
    .concat()
}

/// Options, number of jobs, lengths of trees, text and output, the jobs' parts, trees, text.
pub fn write(out: &mut impl Write, listed: &Listed) -> io::Result<()> {
    let list = &listed.list;
    out.write_all(&list.options.to_le_bytes())?;
    let lengths = [list.jobs.len(), list.trees.len(), list.text.len()];
    for length in lengths.into_iter().chain([listed.room]) {
        files::write_length(out, length)?;
    }
    for job in &list.jobs {
        out.write_all(&job.start.to_le_bytes())?;
        out.write_all(&job.length.to_le_bytes())?;
    }
    out.write_all(&list.trees)?;
    out.write_all(&list.text)
}

/// `ANSWER REFUSAL:PLACE:START .. HEX kept`.
pub fn line(listed: &Listed) -> String {
    let outcome = outcome(&listed.answers, listed.room);
    let mut line = outcome.written.len().to_string();
    for said in &outcome.said {
        line += &format!(" {}:{}:{}", said.refusal, said.place, said.start);
    }
    let written = match &outcome.written[..] {
        [] => "-".to_string(),
        bytes => hex(bytes),
    };
    format!("{line} {written} kept")
}

fn at(start: u64, length: u64) -> Part {
    Part { start, length }
}

fn drop_statement(name: &str) -> Stmt {
    Stmt::DropType {
        if_exists: true,
        type_name: name.to_string(),
    }
}

/// DROP TYPE IF EXISTS, as a Cmd: three records.
fn drop(name: &str) -> Cmd {
    Cmd::Stmt(drop_statement(name))
}

/// A RUN of one name: its text is the name.
fn named(name: &str) -> Vec<Token> {
    vec![Token::id(name)]
}

/// A RUN of nothing: its text is empty.
fn nothing() -> Vec<Token> {
    vec![]
}

/// Three Cmds of different lengths, and their jobs.
fn three() -> (Shelf, [Part; 3]) {
    let (shelf, jobs) = Shelf::of(&[&drop("geo"), &drop("caf\u{E9}"), &drop("t")]);
    (shelf, [jobs[0], jobs[1], jobs[2]])
}

/// No jobs, whatever else is lent; one job, two and three.
fn few() -> Vec<Listed> {
    let empty = Shelf::default();
    let (shelf, jobs) = three();
    let mut lists = vec![];
    for room in [0, AMPLE] {
        lists.push(empty.listed(0, &[], room));
        lists.push(empty.with_more_text(NEVER).listed(0, &[], room));
        lists.push(shelf.listed(0, &[], room));
        lists.push(empty.listed(0, &[at(0, 0)], room));
        lists.push(empty.listed(0, &[at(0, RECORD)], room));
        lists.push(shelf.listed(0, &jobs[..1], room));
        lists.push(shelf.listed(0, &jobs[..2], room));
        lists.push(shelf.listed(0, &jobs, room));
    }
    lists
}

/// The same tree more than once, trees from the last to the first, one inside another, parts that overlap.
fn together() -> Vec<Listed> {
    let (shelf, [a, b, c]) = three();
    let (length, _) = shelf.lengths();
    let mut nested = Shelf::default();
    let [outer, inner] = nested.put_nested(&drop("geo"), &drop_statement("geo"));
    let next = nested.put(&named("x"));
    let overlapping = [
        at(0, length),
        at(RECORD, length - RECORD),
        at(RECORD, a.length),
        at(1, a.length),
        at(a.start, a.length - 1),
        at(a.start, a.length + RECORD),
        b,
    ];
    vec![
        shelf.listed(0, &[a, a], AMPLE),
        shelf.listed(0, &[b, a, b, b], AMPLE),
        shelf.listed(0, &[c, b, a], AMPLE),
        nested.listed(0, &[outer, inner, next], AMPLE),
        nested.listed(0, &[inner, next, outer, inner], AMPLE),
        shelf.listed(0, &overlapping, AMPLE),
        shelf.listed(0, &[&overlapping[..], &overlapping[..]].concat(), AMPLE),
    ]
}

/// Parts that are not inside a buffer of so many bytes, and some that are empty at its end.
fn parts_outside(length: u64) -> Vec<Part> {
    let low_half_inside = 1 << 32;
    vec![
        at(length, 0),
        at(length + 1, 0),
        at(length, RECORD),
        at(length + RECORD, RECORD),
        at(length - RECORD, 2 * RECORD),
        at(0, length + 1),
        at(0, length + RECORD),
        at(RECORD, length),
        at(u64::MAX, 0),
        at(u64::MAX, 1),
        at(u64::MAX, u64::MAX),
        at(0, u64::MAX),
        at(1, u64::MAX),
        at(u64::MAX - RECORD + 1, RECORD),
        at(u64::MAX - RECORD + 1, 2 * RECORD),
        at(u64::MAX - RECORD + 1, RECORD + length),
        at(RECORD, u64::MAX - RECORD + 1),
        at(RECORD, u64::MAX),
        at(1 << 63, 1 << 63),
        at(1 << 63, 3 * RECORD),
        at(low_half_inside, 3 * RECORD),
        at(0, low_half_inside + 3 * RECORD),
    ]
}

/// Each between two good jobs, then all of them.
fn outside() -> Vec<Listed> {
    let (shelf, [a, b, c]) = three();
    let (length, _) = shelf.lengths();
    let parts = parts_outside(length);
    let lists = parts.iter();
    let mut lists: Vec<Listed> = lists
        .map(|&part| shelf.listed(0, &[a, part, b], AMPLE))
        .collect();
    lists.push(shelf.listed(0, &[&parts[..], &[c]].concat(), AMPLE));
    lists.push(shelf.listed(0, &[&[a], &parts[..], &[c]].concat(), 0));
    lists
}

/// A job outside is told before a text that is no text; one that is inside is told after it.
fn outside_of_a_broken_text() -> Vec<Listed> {
    let (shelf, [a, b, _]) = three();
    let (length, _) = shelf.lengths();
    let odd = at(0, a.length - 1);
    let jobs = [
        &[a, odd, at(0, 0)],
        &parts_outside(length)[..],
        &[b, at(RECORD, RECORD)],
    ]
    .concat();
    let ends = [NEVER, CUT, b"\xFFx", b"\xE2\x82x", b"\xF0\x80"];
    ends.map(|end| shelf.with_more_text(end).listed(0, &jobs, AMPLE))
        .into()
}

/// Trees that are refused, each with another number, between two good ones.
fn refused() -> Vec<Listed> {
    let mut random = Random::new(SEED);
    let whole = drop_type(b"geo");
    let changed = |change: &dyn Fn(&mut Case)| {
        let mut case = whole.clone();
        change(&mut case);
        case
    };
    let cases = [
        changed(&|case| case.tree.clear()),
        changed(&|case| case.tree.truncate(2 * SIZE + 1)),
        changed(&|case| case.edit(1, |record| record.mark = [0, 0])),
        changed(&|case| case.edit(1, |record| record.kind = 0)),
        changed(&|case| case.edit(2, |record| record.flags = 1)),
        changed(&|case| case.edit(2, |record| record.length = u32::MAX)),
        Case::from(grow::chain(&mut random, TOO_DEEP)),
        changed(&|case| case.tree.truncate(2 * SIZE)),
        changed(&|case| case.tree.extend(whole.tree.clone())),
    ];
    let mut lists = vec![];
    for case in &cases {
        let mut shelf = Shelf::default();
        let first = shelf.put(&drop("first"));
        let bad = shelf.put_case(case);
        let last = shelf.put(&named("last"));
        lists.push(shelf.listed(0, &[first, bad, last], AMPLE));
        lists.push(shelf.listed(0, &[bad, bad, last, bad], AMPLE));
    }
    lists
}

/// Rooms that end at each text's end, a byte before it and a byte behind it.
fn rooms() -> Vec<Listed> {
    let short = drop("t");
    let (shelf, jobs) = Shelf::of(&[&drop("geo"), &named("x"), &nothing(), &short, &named("yz")]);
    let whole = shelf.listed(0, &jobs, AMPLE);
    let lengths = whole.answers.iter().flatten().map(String::len);
    let ends: Vec<usize> = lengths
        .scan(0, |end, length| {
            *end += length;
            Some(*end)
        })
        .collect();
    let mut rooms: Vec<usize> = ends
        .iter()
        .flat_map(|&end| [end.saturating_sub(1), end, end + 1])
        .collect();
    rooms.extend([0, 1, 2, 3]);
    rooms.sort();
    rooms.dedup();
    let mut lists: Vec<Listed> = rooms
        .iter()
        .map(|&room| shelf.listed(0, &jobs, room))
        .collect();
    let twice = [jobs[0], jobs[0], jobs[2], jobs[1], jobs[0]];
    let once = ends[0];
    lists.extend([0, 1, once, once + 1, 2 * once].map(|room| shelf.listed(0, &twice, room)));
    lists
}

/// Texts about as long as the draft and longer, with rooms that end at their ends or beside them.
fn rooms_of_long_texts() -> Vec<Listed> {
    let mut lists = vec![];
    for length in [DRAFT - 1, DRAFT, DRAFT + 1, 2 * DRAFT] {
        let long = named(&"n".repeat(length));
        let (shelf, jobs) = Shelf::of(&[&named("first"), &long, &named("last")]);
        let both = length + "first".len();
        for room in [both - 1, both, both + 1, both + "last".len()] {
            lists.push(shelf.listed(0, &jobs, room));
        }
        lists.push(shelf.listed(0, &[jobs[1], jobs[1]], 2 * length));
        lists.push(shelf.listed(0, &[jobs[1], jobs[1], jobs[2]], 2 * length - 1));
    }
    lists
}

/// Each setting of the options, over trees that they matter for.
fn options() -> Vec<Listed> {
    let text = |text: &str| Some(text.to_string());
    let mut open = body_with(None, None);
    if let CreateTableBody::ColumnsAndConstraints { constraints, .. } = &mut open {
        constraints.push(check("a/*".to_string()));
    }
    let both = table_with(body_with(text("without rowid"), text("strict")));
    let other = table_with(body_with(text("rowid"), None));
    let quoted = type_with(vec![operator_with("it's", None)]);
    let good = drop("geo");
    let values: [&dyn Encode; 5] = [&table_with(open), &both, &other, &quoted, &good];
    let (shelf, jobs) = Shelf::of(&values);
    let others = OTHERS.into_iter().flat_map(|bits| [bits, SQLITE | bits]);
    let options = SETTINGS.into_iter().chain(others).chain([u32::MAX]);
    options
        .map(|options| shelf.listed(options, &jobs, AMPLE))
        .collect()
}

/// A text that is empty, of the greatest length, and longer.
fn texts() -> Vec<Listed> {
    let (empty, jobs) = Shelf::of(&[&nothing(), &vec![Token::id("")], &nothing()]);
    let (shelf, [a, b, _]) = three();
    let (length, text) = shelf.lengths();
    let filled = |bytes: usize| shelf.with_more_text(&vec![b'x'; bytes - text]);
    let outside = at(length, RECORD);
    vec![
        empty.listed(0, &jobs, 0),
        empty.listed(0, &jobs, AMPLE),
        filled(MOST_BYTES).listed(0, &[a, outside, b], AMPLE),
        filled(MOST_BYTES + 1).listed(0, &[a, outside, b], AMPLE),
    ]
}

/// A buffer that is longer than a tree may be, with trees at its two ends; and trees at odd places.
fn long_buffers() -> Vec<Listed> {
    let mut long = Shelf::default();
    let first = long.put(&drop("first"));
    long.put_bytes(&vec![0; MOST_BYTES]);
    let last = long.put(&drop("last"));
    let (length, _) = long.lengths();
    let most = MOST_BYTES as u64;
    let jobs = [
        first,
        at(0, length),
        at(0, most),
        at(0, most + RECORD),
        at(RECORD, most),
        last,
        at(last.start, last.length + RECORD),
    ];
    let mut odd = Shelf::default();
    odd.put_bytes(b"abc");
    let one = odd.put(&drop("one"));
    odd.put_bytes(b"\0");
    let two = odd.put(&drop("two"));
    vec![
        long.listed(0, &jobs, AMPLE),
        odd.listed(0, &[one, two, at(0, 3 * RECORD), two], AMPLE),
    ]
}
