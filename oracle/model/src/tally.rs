//! How often each kind, flag value and state of a slot occurs in good trees.

use crate::grammar::{
    row, takes, Class, Kind, Slot, KINDS, LIST, NONE, NUMBER, ROOT, ROOT_ELEMENT, RUN, TEXT, TOKEN,
};
use crate::outline::{outline, Node};
use crate::record::{Record, VALUE_PRESENT};
use crate::row::good;
use std::collections::{BTreeMap, BTreeSet};
use tokens::random::Random;
use tokens::token::known_numbers;

/// The kind, and what was seen at it. The root counts as kind 0, tokens as kind 2.
type Sight = (u16, String);

#[derive(Default)]
pub struct Tally {
    seen: BTreeMap<Sight, u64>,
}

/// The tally of this many good trees.
pub fn tally(count: usize, seed: u64) -> Tally {
    let mut random = Random::new(seed);
    let mut tally = Tally::default();
    for _ in 0..count {
        let (tree, _) = good(&mut random);
        tally.tree(&tree);
    }
    tally
}

impl Tally {
    fn saw(&mut self, kind: u16, what: String) {
        *self.seen.entry((kind, what)).or_default() += 1;
    }

    /// Whether the tree has a flag value or a state of a slot that was not seen so often yet; if so, it is counted.
    pub fn gains(&mut self, tree: &[u8], times: u64) -> bool {
        let mut of_tree = Tally::default();
        of_tree.tree(tree);
        of_tree.seen.retain(|(kind, _), _| *kind != TOKEN);
        let often = |sight| self.seen.get(sight).is_some_and(|seen| *seen >= times);
        let gains = !of_tree.seen.keys().all(often);
        if gains {
            let sights = of_tree.seen.into_keys();
            sights.for_each(|sight| *self.seen.entry(sight).or_default() += 1);
        }
        gains
    }

    fn tree(&mut self, tree: &[u8]) {
        let nodes = outline(tree);
        for node in &nodes {
            let record = Record::read(tree, node.index).expect("an admitted tree");
            self.record(&record);
            self.state(&nodes, node, &record);
        }
    }

    fn record(&mut self, record: &Record) {
        if record.kind == TOKEN {
            let valued = match record.flags & VALUE_PRESENT {
                0 => "bare",
                _ => "valued",
            };
            let number = record.flags & !VALUE_PRESENT;
            self.saw(TOKEN, format!("{number} {valued}"));
        }
        if row(record.kind).is_some() {
            self.saw(record.kind, format!("flags {}", record.flags));
        }
    }

    /// What stands in a slot, or in a list of it.
    fn state(&mut self, nodes: &[Node], node: &Node, record: &Record) {
        let Some((kind, place)) = owner(nodes, node) else {
            return;
        };
        self.saw(kind, format!("{place}{}", state_of(record)));
    }

    /// A line for each kind, and what was never seen.
    pub fn report(&self) -> String {
        let mut lines: Vec<String> = Vec::new();
        lines.push(self.line(NONE, "root"));
        lines.extend(KINDS.iter().map(|kind| self.line(kind.number, kind.name)));
        lines.push(self.tokens());
        let missing = self.missing();
        lines.push(format!("missing: {}", missing.len()));
        let told = missing
            .iter()
            .map(|(kind, what)| format!("  {kind} {what}"));
        lines.extend(told);
        lines.join("\n") + "\n"
    }

    fn line(&self, kind: u16, name: &str) -> String {
        let of_kind = self.seen.iter().filter(|((of, _), _)| *of == kind);
        let parts = of_kind.map(|((_, what), count)| format!("{what}: {count}"));
        format!("{kind} {name}; {}", parts.collect::<Vec<_>>().join("; "))
    }

    fn tokens(&self) -> String {
        let of_tokens = self.seen.keys().filter(|(kind, _)| *kind == TOKEN);
        let (valued, bare): (Vec<_>, Vec<_>) = of_tokens.partition(|(_, w)| w.ends_with("valued"));
        let (valued, bare) = (valued.len(), bare.len());
        format!("token numbers: {bare} without a value, {valued} with one")
    }

    /// What the grammar has and the trees have not.
    pub fn missing(&self) -> Vec<Sight> {
        let expected = expected().into_iter();
        expected.filter(|s| !self.seen.contains_key(s)).collect()
    }

    /// What the trees have and the grammar has not.
    pub fn surplus(&self) -> Vec<Sight> {
        let expected = expected();
        let seen = self.seen.keys().cloned();
        seen.filter(|sight| !expected.contains(sight)).collect()
    }
}

/// The kind that owns the slot, and how the slot is called there.
fn owner(nodes: &[Node], node: &Node) -> Option<(u16, String)> {
    let Some(above) = node.above else {
        return Some((NONE, String::new()));
    };
    match above.kind {
        RUN => None,
        LIST => {
            let (kind, place) = owner(nodes, &nodes[above.index])?;
            Some((kind, format!("{place}element ")))
        }
        kind => Some((kind, format!("slot {} ", above.child))),
    }
}

fn state_of(record: &Record) -> String {
    let filled = match record.kind {
        LIST => Some(usize::from(record.children)),
        RUN => Some(usize::from(record.children).min(1)),
        TEXT => Some((record.length as usize).min(1)),
        _ => None,
    };
    match (name_of(record.kind), filled) {
        (name, None) => name,
        (name, Some(0)) => format!("{name} empty"),
        (name, Some(1)) => format!("{name} filled"),
        (name, Some(_)) => format!("{name} of many"),
    }
}

fn name_of(kind: u16) -> String {
    match kind {
        NONE => "NONE".to_string(),
        LIST => "LIST".to_string(),
        TOKEN => "TOKEN".to_string(),
        RUN => "RUN".to_string(),
        TEXT => "TEXT".to_string(),
        NUMBER => "NUMBER".to_string(),
        kind => kind.to_string(),
    }
}

fn expected() -> BTreeSet<Sight> {
    let mut sights = BTreeSet::new();
    expect_states(&mut sights, NONE, "", &ROOT);
    KINDS.iter().for_each(|kind| expect(&mut sights, kind));
    for number in known_numbers() {
        sights.insert((TOKEN, format!("{number} bare")));
        sights.insert((TOKEN, format!("{number} valued")));
    }
    sights
}

fn expect(sights: &mut BTreeSet<Sight>, kind: &Kind) {
    for flags in 0..=kind.flags.last() {
        sights.insert((kind.number, format!("flags {flags}")));
    }
    for (at, slot) in kind.slots.iter().enumerate() {
        expect_states(sights, kind.number, &format!("slot {at} "), slot);
    }
}

fn expect_states(sights: &mut BTreeSet<Sight>, kind: u16, place: &str, slot: &Slot) {
    let mut add = |states: &[&str]| {
        for state in states {
            sights.insert((kind, format!("{place}{state}")));
        }
    };
    if slot.optional {
        add(&["NONE"]);
    }
    let run = ["RUN empty", "RUN filled"];
    let list = ["LIST empty", "LIST filled", "LIST of many"];
    match slot.class {
        Class::Run => add(&run),
        Class::Text => add(&["TEXT empty", "TEXT filled"]),
        Class::Number(..) => add(&["NUMBER"]),
        Class::Token => {}
        Class::List(_) => add(&list),
        Class::Root => {
            add(&run);
            add(&list);
        }
        Class::Kinds(..) | Class::RootElement => add(&run),
    }
    let kinds = KINDS.iter().map(|kind| kind.number);
    for of in kinds.filter(|&of| takes(slot, of)) {
        sights.insert((kind, format!("{place}{of}")));
    }
    match slot.class {
        Class::List(element) => expect_states(sights, kind, &format!("{place}element "), element),
        Class::Root => {
            expect_states(sights, kind, "element ", &ROOT_ELEMENT);
        }
        _ => {}
    }
}
