//! Random values of the crate's own types.

mod expr;
mod names;
pub mod select;
mod statement;
mod table;

use crate::encode::{encode, encode_list, Encode, Pair};
use crate::record::MOST_BYTES;
use tokens::random::Random;
use turso_parser::ast::{Cmd, EqpFormat};

/// Draws values, within bounds on their size.
pub struct Maker<'a> {
    random: &'a mut Random,
    /// How far selects may still be nested.
    nest: usize,
    /// Most elements of a list.
    most: usize,
}

/// A draw of one kind of value.
pub type Draw = fn(&mut Maker) -> Box<dyn Encode>;

impl<'a> Maker<'a> {
    /// Small values mostly, sometimes large ones.
    pub fn new(random: &'a mut Random) -> Maker<'a> {
        let (nest, most) = match random.below(64) {
            0..=15 => (0, 1),
            16..=39 => (1, 2),
            40..=55 => (2, 2),
            56..=60 => (4, 1),
            61 | 62 => (1, 5),
            _ => (2, 4),
        };
        Maker { random, nest, most }
    }

    fn bit(&mut self) -> bool {
        self.random.one_in(2)
    }

    fn maybe<T>(&mut self, make: fn(&mut Self) -> T) -> Option<T> {
        self.bit().then(|| make(self))
    }

    /// From none to the most elements.
    fn some<T>(&mut self, make: fn(&mut Self) -> T) -> Vec<T> {
        let count = self.random.between(0, self.most);
        (0..count).map(|_| make(self)).collect()
    }

    fn cmd(&mut self) -> Cmd {
        let stmt = self.stmt();
        match self.random.below(4) {
            0 => Cmd::Stmt(stmt),
            1 => Cmd::Explain(stmt),
            2 => Cmd::ExplainQueryPlan {
                stmt,
                format: EqpFormat::Text,
            },
            _ => Cmd::ExplainQueryPlan {
                stmt,
                format: EqpFormat::Json,
            },
        }
    }
}

/// Everything that has a kind of its own, but Cmd.
pub const ELEMENTS: [Draw; 27] = [
    |maker| Box::new(maker.stmt()),
    |maker| Box::new(maker.select()),
    |maker| Box::new(maker.select_body()),
    |maker| Box::new(maker.compound()),
    |maker| Box::new(maker.one_select()),
    |maker| Box::new(maker.values()),
    |maker| Box::new(maker.from()),
    |maker| Box::new(maker.join()),
    |maker| Box::new(maker.table()),
    |maker| Box::new(maker.join_constraint()),
    |maker| Box::new(maker.alter_body()),
    |maker| Box::new(maker.table_body()),
    |maker| Box::new(maker.column()),
    |maker| Box::new(maker.table_constraint()),
    |maker| Box::new(maker.references()),
    |maker| Box::new(maker.table_expr()),
    |maker| Box::new(maker.type_of_column()),
    |maker| Box::new(maker.upsert_do()),
    |maker| Box::new(maker.with()),
    |maker| Box::new(maker.type_body()),
    |maker| Box::new(maker.field()),
    |maker| Box::new(maker.param()),
    |maker| Box::new(maker.operator_clause()),
    |maker| Box::new(maker.domain_constraint()),
    |maker| Box::new(maker.name_and_value()),
    |maker| Box::new(maker.named_constraint()),
    |maker| Box::new(maker.expr()),
];

/// A good tree and its text: a Cmd, a statement, a clause, a RUN or a LIST.
pub fn pair(random: &mut Random) -> Pair {
    loop {
        let pair = any_size(random);
        if pair.0.len() <= MOST_BYTES && pair.1.len() <= MOST_BYTES {
            return pair;
        }
    }
}

fn any_size(random: &mut Random) -> Pair {
    let shape = random.below(16);
    let mut maker = Maker::new(random);
    match shape {
        0..=4 => encode(&maker.cmd()),
        5..=8 => encode(&maker.stmt()),
        9..=14 => encode(&*maker.element()),
        _ => encode_list(&maker.some(Maker::element)),
    }
}

/// A Cmd alone, for those who want to hold it beside its tree.
pub fn cmd(random: &mut Random) -> Cmd {
    Maker::new(random).cmd()
}

impl Maker<'_> {
    fn element(&mut self) -> Box<dyn Encode> {
        let draw = self.random.pick(&ELEMENTS);
        draw(self)
    }
}
