//! Good trees without a RUN in the place of a kind, as the field profile asks for them (request xi).

use super::{height, height_of, kinds_of, Grower};
use crate::encode::Pair;
use crate::grammar::{row, Class, Slot, CMD, LIST, RUN};
use crate::outline::outline;
use crate::record::Record;
use tokens::random::Random;

/// What stands at the root: a statement of a kind, alone or in a Cmd without flags.
#[derive(Clone, Copy)]
pub struct Root {
    pub statement: u16,
    pub in_cmd: bool,
}

/// A random tree of about this many records.
pub fn tree(random: &mut Random, root: Root, records: usize) -> Pair {
    let mut grower = Grower::new(random, records);
    grower.cmd(root);
    grower.whole_kind(root.statement);
    grower.out.pair()
}

/// A tree whose deepest record stands exactly at this depth, which such a statement must be able to have.
pub fn chain(random: &mut Random, root: Root, depth: usize) -> Pair {
    loop {
        let mut grower = Grower::new(random, 0);
        grower.cmd(root);
        grower.whole_deep_kind(root.statement, depth - usize::from(root.in_cmd));
        let pair = grower.out.pair();
        if outline(&pair.0).iter().map(|node| node.depth).max() == Some(depth) {
            return pair;
        }
    }
}

impl Grower<'_> {
    /// The Cmd, if there is one.
    fn cmd(&mut self, root: Root) {
        if root.in_cmd {
            self.out.kind(CMD);
        }
    }

    fn whole_place(&mut self, slot: &Slot) {
        self.left = self.left.saturating_sub(1);
        if self.left == 0 {
            return self.least(slot);
        }
        if slot.optional && self.random.one_in(2) {
            return self.out.none();
        }
        let kinds = kinds_of(&slot.class);
        match slot.class {
            Class::List(element) => {
                let count = self.random.between(0, 3);
                self.out.record(&Record::new(LIST, count as u16));
                (0..count).for_each(|_| self.whole_place(element));
            }
            _ if kinds.is_empty() => self.leaf(&slot.class),
            _ => {
                let kind = self.random.pick(&kinds);
                self.whole_kind(kind);
            }
        }
    }

    fn whole_kind(&mut self, number: u16) {
        let kind = row(number).expect("a kind of the table");
        let flags = self.random.between(0, usize::from(kind.flags.last()));
        self.out.flagged(number, flags as u16);
        kind.slots.iter().for_each(|slot| self.whole_place(slot));
    }

    /// As few records as there can be. The first kind that a place takes never has another of itself below it.
    fn least(&mut self, slot: &Slot) {
        let first = kinds_of(&slot.class).first().copied();
        match first {
            Some(kind) if !slot.optional => {
                self.out.kind(kind);
                let slots = row(kind).expect("a kind of the table").slots;
                slots.iter().for_each(|slot| self.least(slot));
            }
            _ => self.smallest(slot),
        }
    }

    /// A record with this many levels, itself counted, or about as many where it cannot have them.
    fn whole_deep(&mut self, slot: &'static Slot, levels: usize) {
        let mut kinds = kinds_of(&slot.class);
        kinds.retain(|&kind| height_of(kind) >= levels);
        match slot.class {
            _ if levels <= 1 => self.least(slot),
            Class::List(element) => {
                self.out.record(&Record::new(LIST, 1));
                self.whole_deep(element, levels - 1);
            }
            Class::Run => {
                self.out.record(&Record::new(RUN, 1));
                self.token();
            }
            _ if kinds.is_empty() => self.least(slot),
            _ => {
                let kind = self.random.pick(&kinds);
                self.whole_deep_kind(kind, levels);
            }
        }
    }

    fn whole_deep_kind(&mut self, number: u16, levels: usize) {
        let kind = row(number).expect("a kind of the table");
        let fits = |&at: &usize| height(&kind.slots[at]) + 1 >= levels;
        let ways: Vec<usize> = (0..kind.slots.len()).filter(fits).collect();
        let way = self.random.pick(&ways);
        self.out.kind(number);
        for (at, slot) in kind.slots.iter().enumerate() {
            match at == way {
                true => self.whole_deep(slot, levels - 1),
                false => self.least(slot),
            }
        }
    }
}
