//! Good trees made from the grammar alone.

pub mod whole;

use crate::encode::{Pair, Writer};
use crate::grammar::{row, Class, Slot, CMD, KINDS, LIST, REPLACE, ROOT, ROOT_ELEMENT, RUN};
use crate::record::Record;
use std::ops::RangeInclusive;
use std::sync::OnceLock;
use tokens::random::Random;
use tokens::values::{random_token, random_value};

const LONGEST_VALUE: usize = 40;

/// A random tree of about this many records.
pub fn tree(random: &mut Random, records: usize) -> Pair {
    let mut grower = Grower::new(random, records);
    grower.place(&ROOT, 1);
    grower.out.pair()
}

/// A tree whose deepest record stands exactly at this depth.
pub fn chain(random: &mut Random, depth: usize) -> Pair {
    let mut grower = Grower::new(random, 0);
    grower.deep(&ROOT, depth);
    grower.out.pair()
}

/// The smallest tree with this kind at the root.
pub fn smallest(kind: u16, flags: u16) -> Pair {
    let mut random = Random::new(0);
    let mut grower = Grower::new(&mut random, 0);
    grower.out.flagged(kind, flags);
    let slots = row(kind).expect("a kind of the table").slots;
    slots.iter().for_each(|slot| grower.smallest(slot));
    grower.out.pair()
}

/// This kind at the root, and everything optional there.
pub fn fullest(random: &mut Random, kind: u16) -> Pair {
    let mut grower = Grower::new(random, 0);
    grower.full_kind(kind, 1);
    grower.out.pair()
}

struct Grower<'a> {
    random: &'a mut Random,
    out: Writer,
    /// Records that may still be added freely.
    left: usize,
}

/// Below this depth a RUN stands for a kind.
const DEEP: usize = 30;
const FULL: usize = 5;

impl Grower<'_> {
    fn new(random: &mut Random, left: usize) -> Grower<'_> {
        let out = Writer::default();
        Grower { random, out, left }
    }

    fn place(&mut self, slot: &Slot, depth: usize) {
        self.left = self.left.saturating_sub(1);
        let present = self.random.one_in(if self.left == 0 { 4 } else { 2 });
        if slot.optional && !present {
            return self.out.none();
        }
        let kinds = kinds_of(&slot.class);
        match slot.class {
            Class::List(element) => self.list(element, depth),
            Class::Root if self.random.one_in(8) => self.list(&ROOT_ELEMENT, depth),
            _ if kinds.is_empty() => self.leaf(&slot.class),
            _ if self.left == 0 || depth > DEEP || self.random.one_in(5) => self.run(),
            _ => {
                let kind = self.random.pick(&kinds);
                self.kind(kind, depth);
            }
        }
    }

    fn kind(&mut self, number: u16, depth: usize) {
        let kind = row(number).expect("a kind of the table");
        let flags = self.random.between(0, usize::from(kind.flags.last()));
        self.out.flagged(number, flags as u16);
        kind.slots.iter().for_each(|s| self.place(s, depth + 1));
    }

    fn list(&mut self, element: &Slot, depth: usize) {
        let most = if self.left == 0 { 1 } else { 3 };
        let count = self.random.between(0, most);
        self.out.record(&Record::new(LIST, count as u16));
        (0..count).for_each(|_| self.place(element, depth + 1));
    }

    /// A RUN, TEXT or NUMBER.
    fn leaf(&mut self, class: &Class) {
        match *class {
            Class::Text => {
                let value = random_value(self.random, LONGEST_VALUE);
                self.out.text(&value.unwrap_or_default());
            }
            Class::Number(first, last) => {
                let number = match self.random.below(4) {
                    0 => first,
                    1 => last,
                    _ => (self.random.word() as i64).clamp(first, last),
                };
                self.out.number(number);
            }
            _ => self.run(),
        }
    }

    /// Any tokens.
    fn run(&mut self) {
        let count = self.random.between(0, 3);
        self.out.record(&Record::new(RUN, count as u16));
        for _ in 0..count {
            self.token();
        }
        self.left = self.left.saturating_sub(count);
    }

    fn token(&mut self) {
        let token = random_token(self.random, LONGEST_VALUE);
        self.out.token(token.number, token.value.as_deref());
    }

    /// One record without children.
    fn smallest(&mut self, slot: &Slot) {
        match slot.class {
            _ if slot.optional => self.out.none(),
            Class::List(_) => self.out.record(&Record::new(LIST, 0)),
            Class::Text => self.out.text(""),
            Class::Number(first, last) => self.out.number(0.clamp(first, last)),
            _ => self.out.record(&Record::new(RUN, 0)),
        }
    }

    /// A record with exactly this many levels, itself counted.
    fn deep(&mut self, slot: &'static Slot, levels: usize) {
        if levels == 1 {
            return self.smallest(slot);
        }
        if let Class::List(element) = slot.class {
            return self.deep_list(element, levels);
        }
        if slot.class == Class::Root && self.random.one_in(8) {
            return self.deep_list(&ROOT_ELEMENT, levels);
        }
        let mut kinds = kinds_of(&slot.class);
        kinds.retain(|&kind| height_of(kind) >= levels);
        if kinds.is_empty() || (levels == 2 && self.random.one_in(3)) {
            assert_eq!(levels, 2, "a run has two levels");
            self.out.record(&Record::new(RUN, 1));
            return self.token();
        }
        let kind = self.random.pick(&kinds);
        self.deep_kind(kind, levels);
    }

    fn deep_kind(&mut self, number: u16, levels: usize) {
        let kind = row(number).expect("a kind of the table");
        let fits = |&at: &usize| height(&kind.slots[at]) >= levels - 1;
        let ways: Vec<usize> = (0..kind.slots.len()).filter(fits).collect();
        let way = self.random.pick(&ways);
        self.out.kind(number);
        for (at, slot) in kind.slots.iter().enumerate() {
            match at == way {
                true => self.deep(slot, levels - 1),
                false => self.smallest(slot),
            }
        }
    }

    fn deep_list(&mut self, element: &'static Slot, levels: usize) {
        let (before, after) = (self.random.below(2), self.random.below(2));
        let count = before + 1 + after;
        self.out.record(&Record::new(LIST, count as u16));
        (0..before).for_each(|_| self.smallest(element));
        self.deep(element, levels - 1);
        (0..after).for_each(|_| self.smallest(element));
    }

    fn full(&mut self, slot: &Slot, depth: usize) {
        let kinds = kinds_of(&slot.class);
        match slot.class {
            Class::List(element) => {
                self.out.record(&Record::new(LIST, 2));
                self.full(element, depth + 1);
                self.smallest(element);
            }
            _ if kinds.is_empty() => self.leaf(&slot.class),
            _ if depth > FULL => self.run(),
            _ => {
                let kind = self.random.pick(&kinds);
                self.full_kind(kind, depth);
            }
        }
    }

    fn full_kind(&mut self, number: u16, depth: usize) {
        let kind = row(number).expect("a kind of the table");
        self.out.flagged(number, kind.flags.last());
        kind.slots.iter().for_each(|s| self.full(s, depth + 1));
    }
}

/// The kinds of the table that may stand in a place of this class.
fn kinds_of(class: &Class) -> Vec<u16> {
    match *class {
        Class::Kinds(first, last) => numbers(first..=last).collect(),
        Class::Root => numbers(CMD..=120).filter(|&k| k != REPLACE).collect(),
        Class::RootElement => numbers(32..=120).filter(|&k| k != REPLACE).collect(),
        _ => vec![],
    }
}

fn numbers(range: RangeInclusive<u16>) -> impl Iterator<Item = u16> {
    let all = KINDS.iter().map(|kind| kind.number);
    all.filter(move |number| range.contains(number))
}

/// Past any depth that is tried.
const ENDLESS: usize = 100;

/// The most levels under this kind, itself counted.
fn height_of(kind: u16) -> usize {
    static HEIGHTS: OnceLock<Vec<usize>> = OnceLock::new();
    HEIGHTS.get_or_init(heights)[usize::from(kind)]
}

fn height(slot: &Slot) -> usize {
    height_in(slot, &height_of)
}

fn height_in(slot: &Slot, of: &dyn Fn(u16) -> usize) -> usize {
    match slot.class {
        Class::Text | Class::Number(..) | Class::Token => 1,
        Class::List(element) => 1 + height_in(element, of),
        Class::Run => 2,
        _ => {
            let kinds = kinds_of(&slot.class).into_iter();
            kinds.map(of).max().unwrap_or(0).max(2)
        }
    }
}

/// Grown until nothing changes below ENDLESS.
fn heights() -> Vec<usize> {
    let mut heights = vec![1; 121];
    for _ in 0..ENDLESS {
        let before = heights.clone();
        for kind in KINDS {
            let below = kind.slots.iter();
            let below = below.map(|slot| height_in(slot, &|k| before[usize::from(k)]));
            let tall = 1 + below.max().unwrap_or(0);
            heights[usize::from(kind.number)] = tall.min(ENDLESS);
        }
    }
    heights
}
