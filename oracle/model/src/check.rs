//! The refusals of a tree and its text.

use crate::grammar::{
    self, known_token, row, takes, Class, Slot, CHECK, LIST, NONE, NUMBER, ROOT, ROOT_ELEMENT, RUN,
    TABLE_BODY, TEXT, TOKEN, TOKENS,
};
use crate::options::{Edition, STRICT};
use crate::record::{Record, MARK, MOST_BYTES, SIZE, VALUE_PRESENT};
use crate::rowid::says_without_rowid;
use crate::source::ends_inside;
use tokens::encoding::{text_in, Refusal};

pub const DEEPEST: usize = 64;

/// Which child of a Check is its source, and which of a table's body its without-rowid text; the first is 0.
pub const SOURCE: (u16, usize) = (CHECK, 1);
pub const WITHOUT_ROWID: (u16, usize) = (TABLE_BODY, 2);

/// The number and place of the first refusal, (0, 0) if the tree is admitted.
pub fn check(tree: &[u8], text: &[u8]) -> (u32, u32) {
    check_with(0, tree, text)
}

/// The same of a call with options.
pub fn check_with(options: u32, tree: &[u8], text: &[u8]) -> (u32, u32) {
    match first_refusal(options, tree, text) {
        Ok(()) => (0, 0),
        Err(refusal) => refusal,
    }
}

fn first_refusal(options: u32, tree: &[u8], text: &[u8]) -> Result<(), Refusal> {
    if tree.is_empty() || tree.len() > MOST_BYTES || !tree.len().is_multiple_of(SIZE) {
        return Err((1, 0));
    }
    let mut walk = Walk {
        tree,
        text: text_in(text)?,
        strict: options & STRICT != 0,
        edition: Edition::of(options),
        next: 0,
    };
    walk.record(&ROOT, None, 1)?;
    walk.end()
}

struct Walk<'a> {
    tree: &'a [u8],
    text: &'a str,
    /// Whether a CHECK source that is left open is refused.
    strict: bool,
    edition: Edition,
    next: usize,
}

impl Walk<'_> {
    /// The next record, which stands in this slot and is this child of a record of this kind, and all below it.
    fn record(
        &mut self,
        slot: &'static Slot,
        child_of: Option<(u16, usize)>,
        depth: usize,
    ) -> Result<(), Refusal> {
        let index = self.next as u32;
        let record = Record::read(self.tree, self.next).ok_or((7, index))?;
        self.next += 1;
        let allowed = takes(slot, record.kind) && well_formed(&record, &slot.class);
        let tests = [
            (3, record.mark == MARK),
            (4, allowed),
            (5, part_inside(&record, self.text)),
            (9, !self.left_open(&record, child_of)),
            (10, !self.says_otherwise(&record, child_of)),
            (6, depth <= DEEPEST),
        ];
        match tests.iter().find(|(_, passed)| !passed) {
            Some(&(number, _)) => Err((number, index)),
            None => self.children(&record, slot, depth + 1),
        }
    }

    fn children(&mut self, parent: &Record, slot: &Slot, depth: usize) -> Result<(), Refusal> {
        let child = |at: usize| Some((parent.kind, at));
        if let Some(every) = slot_of_every_child(parent.kind, slot) {
            let mut children = 0..usize::from(parent.children);
            return children.try_for_each(|at| self.record(every, child(at), depth));
        }
        let slots = row(parent.kind).map_or(&[][..], |kind| kind.slots);
        let mut slots = slots.iter().enumerate();
        slots.try_for_each(|(at, slot)| self.record(slot, child(at), depth))
    }

    /// Whether the record is the source of a CHECK, and is left open although that is asked to be refused. False of a part
    /// that is not inside the text.
    fn left_open(&self, record: &Record, child_of: Option<(u16, usize)>) -> bool {
        let source = self.strict && record.kind == TEXT && child_of == Some(SOURCE);
        source && part(record, self.text).is_some_and(ends_inside)
    }

    /// Whether the record is the without-rowid text of a table, and says something else although SQLite is to read it. False
    /// of a part that is not inside the text.
    fn says_otherwise(&self, record: &Record, child_of: Option<(u16, usize)>) -> bool {
        let is_text = record.kind == TEXT && child_of == Some(WITHOUT_ROWID);
        let looked_at = is_text && self.edition == Edition::Sqlite;
        looked_at && part(record, self.text).is_some_and(|text| !says_without_rowid(text))
    }

    /// Nothing may be left over.
    fn end(&self) -> Result<(), Refusal> {
        if self.next * SIZE < self.tree.len() {
            return Err((7, self.next as u32));
        }
        Ok(())
    }
}

/// The one slot of all children of a LIST or RUN, which stands in the given slot.
pub fn slot_of_every_child(kind: u16, slot: &Slot) -> Option<&'static Slot> {
    match (kind, slot.class) {
        (RUN, _) => Some(&TOKENS),
        (LIST, Class::List(element)) => Some(element),
        (LIST, _) => Some(&ROOT_ELEMENT),
        _ => None,
    }
}

/// Child count, flags, fields and number, for a kind that may stand here.
fn well_formed(record: &Record, class: &Class) -> bool {
    let childless = record.children == 0;
    let flagless = record.flags == 0;
    let partless = record.start == 0 && record.length == 0;
    match record.kind {
        NONE => childless && flagless && partless,
        LIST | RUN => flagless && partless,
        TOKEN => childless && token(record.flags) && (has_value(record) || partless),
        TEXT => childless && flagless,
        NUMBER => childless && flagless && number_in(class, record.as_number()),
        _ => partless && row(record.kind).is_some_and(|kind| fits_row(record, kind)),
    }
}

fn fits_row(record: &Record, kind: &grammar::Kind) -> bool {
    usize::from(record.children) == kind.slots.len() && kind.flags.takes(record.flags)
}

fn token(flags: u16) -> bool {
    known_token(flags & !VALUE_PRESENT)
}

fn has_value(record: &Record) -> bool {
    record.flags & VALUE_PRESENT != 0
}

fn number_in(class: &Class, number: i64) -> bool {
    match *class {
        Class::Number(first, last) => (first..=last).contains(&number),
        _ => false,
    }
}

/// True of a record that has no text part.
fn part_inside(record: &Record, text: &str) -> bool {
    !record.names_part() || part(record, text).is_some()
}

/// The text part that a record names, if both ends are inside the text, or at its end, and not inside a character.
fn part<'a>(record: &Record, text: &'a str) -> Option<&'a str> {
    let start = u64::from(record.start);
    let end = start + u64::from(record.length);
    let ends_are_good = at_edge(text, start) && at_edge(text, end);
    ends_are_good.then(|| &text[start as usize..end as usize])
}

/// Inside the text or at its end, and not inside a character.
fn at_edge(text: &str, place: u64) -> bool {
    place <= text.len() as u64 && text.is_char_boundary(place as usize)
}
