//! The switch that refuses open CHECK sources (request vii), with faults that can be planted in it. A source is read byte by
//! byte, with the byte before.

use crate::faults::{planted, Fault};
use model::grammar::{CHECK, OPERATOR, TABLE_BODY, TEXT, TOKEN};
use model::record::Record;
use tokens::encoding::{Refusal, CUT_OFF, NOT_UTF8};

/// What the last byte is inside of.
#[derive(Clone, Copy, PartialEq)]
enum Inside {
    Nothing,
    Line,
    Block,
    Quote(u8),
}

/// A record, with the kind and index of the one above it and its place among that one's children.
pub struct Placed {
    pub index: usize,
    pub record: Record,
    pub above: Option<(u16, usize)>,
    pub child: u16,
}

/// The answer with these options, from the one without them.
pub fn refusal(options: u32, tree: &[u8], text: &[u8], without: Refusal) -> Refusal {
    let (number, place) = without;
    let place = place as usize;
    if !on(options) || matches!(number, 1 | NOT_UTF8 | CUT_OFF) {
        return without;
    }
    let later = number == 6 && planted(Fault::SourceAfterDepth)
        || number == 7 && planted(Fault::SourceAfterCount)
        || number > 0 && planted(Fault::SourceAfterAll);
    if later {
        return without;
    }
    let records = tree.len() / Record::new(0, 0).bytes().len();
    let looked_at = match number {
        _ if planted(Fault::SourceBeforeAll) => records,
        0 => records,
        5 if planted(Fault::SourceBeforePart) => place + 1,
        _ => place,
    };
    let placed = placed(tree, looked_at);
    let mut open = placed.iter().filter(|placed| left_open(placed, text));
    let found = match planted(Fault::LastSourceOnly) {
        true => open.next_back(),
        false => open.next(),
    };
    found.map_or(without, |found| (9, told_place(found)))
}

/// Whether the options have the switch on.
fn on(options: u32) -> bool {
    let on = options & 1 == 1;
    if planted(Fault::SwitchAlwaysOn) {
        return true;
    }
    if planted(Fault::OtherBitIsSwitch) {
        return on || options >> 31 == 1;
    }
    if planted(Fault::OtherBitsTurnItOff) {
        return options == 1;
    }
    if planted(Fault::EditionIsSwitch) {
        return on || options & 2 != 0;
    }
    on && !planted(Fault::SwitchNeverOn)
}

fn told_place(found: &Placed) -> u32 {
    let check = found.above.map_or(0, |(_, index)| index);
    let index = match planted(Fault::PlaceOfCheck) {
        true => check,
        false => found.index,
    };
    index as u32
}

/// Whether it is a source that is open.
fn left_open(placed: &Placed, text: &[u8]) -> bool {
    let record = &placed.record;
    let start = (record.start as usize).min(text.len());
    let end = (start + record.length as usize).min(text.len());
    is_looked_at(placed) && ends_inside(&text[start..end])
}

/// The second child of a Check, if it is a TEXT.
fn is_looked_at(placed: &Placed) -> bool {
    let above = placed.above.map(|(kind, _)| kind);
    let is_text = placed.record.kind == TEXT;
    match (above, placed.child) {
        (Some(CHECK), 1) => is_text,
        (Some(TABLE_BODY), 2) => is_text && planted(Fault::RowidLookedAt),
        (Some(OPERATOR), 0) => is_text && planted(Fault::OperatorLookedAt),
        (_, 0) => placed.record.kind == TOKEN && planted(Fault::ExpressionLookedAt),
        _ => false,
    }
}

/// So many records of a tree, as far as their numbers of children tell which stands below which.
pub fn placed(tree: &[u8], records: usize) -> Vec<Placed> {
    let mut placed = vec![];
    // Each record above the next one, with how many children are still to come.
    let mut above: Vec<(Record, usize, u16)> = vec![];
    for index in 0..records {
        let Some(record) = Record::read(tree, index) else {
            break;
        };
        while above.last().is_some_and(|(_, _, left)| *left == 0) {
            above.pop();
        }
        let (up, child) = match above.last_mut() {
            None => (None, 0),
            Some((up, at, left)) => {
                *left -= 1;
                (Some((up.kind, *at)), up.children - *left - 1)
            }
        };
        placed.push(Placed {
            index,
            record,
            above: up,
            child,
        });
        above.push((record, index, record.children));
    }
    placed
}

fn ends_inside(source: &[u8]) -> bool {
    let mut inside = Inside::Nothing;
    let mut before = 0;
    for &byte in source {
        let now = read_on(inside, [before, byte]);
        // Bytes that opened or ended something have no part in what comes next.
        let used =
            now != inside && !(now == Inside::Block && planted(Fault::BlockClosedByItsOpening));
        before = if used { 0 } else { byte };
        inside = now;
    }
    match inside {
        Inside::Nothing => false,
        Inside::Line => planted(Fault::LineRefused),
        Inside::Block => !planted(Fault::OpenBlockTaken),
        Inside::Quote(_) => true,
    }
}

/// What a byte leaves us inside of; the byte before it comes with it, unless it was used.
fn read_on(inside: Inside, pair: [u8; 2]) -> Inside {
    let byte = pair[1];
    let block = &pair == b"/*";
    let line = &pair == b"--";
    let quote = is_quote(byte);
    match inside {
        Inside::Nothing if block => Inside::Block,
        Inside::Nothing if line => Inside::Line,
        Inside::Nothing if quote => Inside::Quote(byte),
        Inside::Line if ends_line(byte) => Inside::Nothing,
        Inside::Line if quote && planted(Fault::QuoteInLineOpens) => Inside::Quote(byte),
        Inside::Line if block && planted(Fault::BlockInLineOpens) => Inside::Block,
        Inside::Block if &pair == b"*/" => Inside::Nothing,
        Inside::Block if byte == b'\n' && planted(Fault::NewlineEndsBlock) => Inside::Nothing,
        Inside::Block if quote && planted(Fault::QuoteInBlockOpens) => Inside::Quote(byte),
        Inside::Block if line && planted(Fault::LineInBlockOpens) => Inside::Line,
        Inside::Quote(opened) if byte == opened => Inside::Nothing,
        Inside::Quote(_) if quote && planted(Fault::AnyQuoteCloses) => Inside::Nothing,
        Inside::Quote(_) if line && planted(Fault::LineInQuoteOpens) => Inside::Line,
        Inside::Quote(_) if block && planted(Fault::BlockInQuoteOpens) => Inside::Block,
        same => same,
    }
}

fn is_quote(byte: u8) -> bool {
    matches!(byte, b'\'' | b'"') || byte == b'`' && !planted(Fault::BacktickIsNoQuote)
}

fn ends_line(byte: u8) -> bool {
    byte == b'\n' || byte == b'\r' && planted(Fault::ReturnEndsLine)
}
