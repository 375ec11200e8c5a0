//! Damaged copies of good trees. Some damages leave a good tree.

mod fields;
mod parts;
mod shape;
pub mod sizes;
pub mod text;

use crate::check::check_with;
use crate::encode::Pair;
use crate::record::{Record, SIZE};
pub use shape::run_for_kind;
use tokens::random::Random;

pub struct Damage {
    pub name: &'static str,
    weight: usize,
    apply: fn(&mut Random, &mut Case),
}

/// A tree and a text, to be checked together, and the options of the call.
#[derive(Clone, Debug, PartialEq)]
pub struct Case {
    pub options: u32,
    pub tree: Vec<u8>,
    pub text: Vec<u8>,
}

/// Without options.
impl From<Pair> for Case {
    fn from((tree, text): Pair) -> Case {
        let options = 0;
        Case {
            options,
            tree,
            text,
        }
    }
}

impl Case {
    /// The case with these options.
    pub fn with(self, options: u32) -> Case {
        Case { options, ..self }
    }

    /// The model's answer: the first refusal, (0, 0) if there is none.
    pub fn refusal(&self) -> (u32, u32) {
        check_with(self.options, &self.tree, &self.text)
    }

    pub fn records(&self) -> usize {
        self.tree.len() / SIZE
    }

    /// Changes the record at an index.
    pub fn edit(&mut self, index: usize, change: impl FnOnce(&mut Record)) {
        let Some(mut record) = Record::read(&self.tree, index) else {
            return;
        };
        change(&mut record);
        record.write(&mut self.tree, index);
    }

    /// The indices of the records that are so.
    fn those(&self, so: impl Fn(&Record) -> bool) -> Vec<usize> {
        let record = |&index: &usize| Record::read(&self.tree, index).is_some_and(|r| so(&r));
        (0..self.records()).filter(record).collect()
    }

    /// One such index, if there is any.
    fn one(&self, random: &mut Random, so: impl Fn(&Record) -> bool) -> Option<usize> {
        let those = self.those(so);
        match those.is_empty() {
            true => None,
            false => Some(random.pick(&those)),
        }
    }
}

macro_rules! damages {
    ($($weight:literal $name:literal $apply:expr;)*) => {
        &[$(Damage { name: $name, weight: $weight, apply: $apply }),*]
    };
}

/// What can be done to a good case, with how often it is.
pub static DAMAGES: &[Damage] = damages! {
    40 "mark" fields::mark;
    40 "kind, near" fields::kind_near;
    30 "kind, of the table" fields::kind_of_the_table;
    20 "kind, any number" fields::kind_any;
    40 "child count by one" fields::count_by_one;
    20 "child count, any" fields::count_any;
    40 "flag bit" fields::flag_bit;
    20 "flags, any" fields::flags_any;
    20 "flags past the last" fields::flags_past;
    40 "unused field" fields::unused_field;
    40 "token number unknown" fields::token_unknown;
    20 "token number, any" fields::token_any;
    30 "value bit" fields::value_bit;
    150 "number at the edges" fields::number_edges;
    40 "part by a little" parts::by_a_little;
    30 "part between edges" parts::between_edges;
    40 "part inside a character" parts::inside_a_character;
    20 "part empty inside a character" parts::empty_inside;
    30 "part past the end" parts::past_the_end;
    20 "part wraps" parts::wraps;
    20 "part empty at the end" parts::empty_at_the_end;
    20 "record inserted" shape::inserted;
    20 "record removed" shape::removed;
    20 "records swapped" shape::swapped;
    30 "cut off" shape::cut_off;
    30 "left over" shape::left_over;
    60 "NONE in a slot" shape::none_in_slot;
    10 "NONE in a RUN" shape::none_in_run;
    60 "kind beside the slot's" shape::kind_beside;
    40 "RUN for a kind" shape::run_for_kind;
    40 "list element replaced" shape::element_replaced;
    40 "slot filled by another class" shape::slot_replaced;
    20 "element doubled" shape::element_doubled;
    20 "element taken out" shape::element_taken_out;
    20 "put under another root" shape::under_another_root;
    20 "random bytes" shape::random_bytes;
    10 "random records" shape::random_records;
    5 "empty tree" sizes::empty_tree;
    20 "ragged tree" sizes::ragged_tree;
    20 "depth 63 to 66" sizes::depth;
    10 "depth and a field" sizes::depth_and_field;
    10 "depth and a fault at 65" sizes::fault_at_65;
    10 "depth and cut off" sizes::depth_and_cut;
    40 "bad UTF-8" text::bad;
    10 "text cut short" text::cut_short;
    10 "text empty" text::emptied;
    1 "tree of 4,096 records" sizes::tree_full;
    1 "tree of 4,097 records" sizes::tree_over;
    1 "tree of 65,537 bytes" sizes::tree_over_by_one;
    1 "text of 65,535 to 65,537 bytes" text::at_the_limit;
    1 "text over the limit and bad" text::over_and_bad;
    30 "mark and bad UTF-8" |random, case| {
        fields::mark(random, case);
        text::bad(random, case);
    };
    120 "two at once" |random, case| {
        damage(random, case);
        damage(random, case);
    };
};

/// Damages the case. The name tells how.
pub fn damage(random: &mut Random, case: &mut Case) -> &'static str {
    let before = case.clone();
    loop {
        let damage = drawn(random);
        (damage.apply)(random, case);
        // Not every damage fits every case.
        if *case != before {
            return damage.name;
        }
    }
}

fn drawn(random: &mut Random) -> &'static Damage {
    let total = DAMAGES.iter().map(|damage| damage.weight).sum();
    let mut at = random.below(total);
    for damage in DAMAGES {
        if at < damage.weight {
            return damage;
        }
        at -= damage.weight;
    }
    unreachable!("the weights add up")
}
