//! A second reading of request vii, written apart from the model's: a source is read from the right, and the order of the
//! refusals comes from the answer without the switch.

use model::damage::Case;
use model::grammar::{CHECK, TEXT};
use model::record::Record;
use tokens::encoding::{Refusal, CUT_OFF, NOT_UTF8};

/// What a place of a source may be inside of.
#[derive(Clone, Copy)]
enum Inside {
    Nothing,
    Line,
    Block,
    Quote(u8),
}

const QUOTES: [u8; 3] = [b'\'', b'"', b'`'];
const PLACES: [Inside; 6] = [
    Inside::Nothing,
    Inside::Line,
    Inside::Block,
    Inside::Quote(QUOTES[0]),
    Inside::Quote(QUOTES[1]),
    Inside::Quote(QUOTES[2]),
];
/// Where each of them stands in the row.
const NOTHING: usize = 0;
const LINE: usize = 1;
const BLOCK: usize = 2;
const FIRST_QUOTE: usize = 3;

/// For each thing that a place may be inside of: whether the source, read on from there, ends inside a block comment or
/// a quote.
type Row = [bool; 6];

/// At the end it does, if it is inside one there.
const END: Row = [false, false, true, true, true, true];

/// Whether the source ends inside a block comment or a quote: from the right, place by place, for all that a place may be
/// inside of. At its beginning it is inside nothing.
pub fn ends_inside(source: &[u8]) -> bool {
    let (mut next, mut second) = (END, END);
    for at in (0..source.len()).rev() {
        let here = PLACES.map(|inside| on_from(inside, &source[at..], &next, &second));
        (next, second) = (here, next);
    }
    next[NOTHING]
}

/// The same for one of them, from the rows of the next two places.
fn on_from(inside: Inside, rest: &[u8], next: &Row, second: &Row) -> bool {
    let (byte, pair) = (rest[0], rest.get(..2));
    match inside {
        Inside::Nothing if pair == Some(b"--") => second[LINE],
        Inside::Nothing if pair == Some(b"/*") => second[BLOCK],
        Inside::Nothing => match QUOTES.iter().position(|&quote| quote == byte) {
            Some(quote) => next[FIRST_QUOTE + quote],
            None => next[NOTHING],
        },
        Inside::Line if byte == b'\n' => next[NOTHING],
        Inside::Line => next[LINE],
        Inside::Block if pair == Some(b"*/") => second[NOTHING],
        Inside::Block => next[BLOCK],
        Inside::Quote(quote) if byte == quote => next[NOTHING],
        Inside::Quote(quote) => {
            let quote = QUOTES.iter().position(|&other| other == quote);
            next[FIRST_QUOTE + quote.expect("a quote")]
        }
    }
}

/// The answer with the switch on, from the one with it off: an open source comes first if its record comes before the
/// refused one, or is the refused one and 6 would be its number. What is refused before the records stays.
pub fn with_switch(case: &Case, without: Refusal) -> Refusal {
    let (number, place) = without;
    let looked_at = match number {
        0 => case.records(),
        1 | NOT_UTF8 | CUT_OFF => 0,
        6 => place as usize + 1,
        _ => place as usize,
    };
    let open = first_open(case, looked_at);
    open.map_or(without, |index| (9, index as u32))
}

/// The first open source among so many records, which are good but for their depth.
fn first_open(case: &Case, records: usize) -> Option<usize> {
    sources(&case.tree, records).into_iter().find(|&index| {
        let record = Record::read(&case.tree, index).expect("a record that was looked at");
        let start = record.start as usize;
        ends_inside(&case.text[start..][..record.length as usize])
    })
}

/// Which of so many records are sources: each TEXT that is the second child of a Check. Only the numbers of children
/// tell which record stands below which.
fn sources(tree: &[u8], records: usize) -> Vec<usize> {
    // Of each record above the next one: its kind, its children, and how many of them are passed.
    let mut above: Vec<(u16, u16, u16)> = vec![];
    let mut sources = vec![];
    for index in 0..records {
        let record = Record::read(tree, index).expect("a record that was looked at");
        if let Some((kind, _, passed)) = above.last_mut() {
            if record.kind == TEXT && *kind == CHECK && *passed == 1 {
                sources.push(index);
            }
            *passed += 1;
        }
        above.push((record.kind, record.children, 0));
        while above
            .last()
            .is_some_and(|(_, children, passed)| children == passed)
        {
            above.pop();
        }
    }
    sources
}

/// Whether any source of a tree is open, as far as the records tell: behind its refused record, too.
pub fn any_open(case: &Case) -> bool {
    let open = |&index: &usize| {
        let record = Record::read(&case.tree, index).expect("a place in the tree");
        let start = record.start as usize;
        let bytes = case.text.get(start..start + record.length as usize);
        record.kind == TEXT && bytes.is_some_and(ends_inside)
    };
    model::sources::places(&case.tree).iter().any(open)
}
