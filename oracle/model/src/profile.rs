//! The field profile (request xi): what a unit under the small contract may receive, by document 02 and the reading R23.

pub mod drawn;
pub mod listed;

use crate::damage::Case;
use crate::grammar::{takes, Slot, CMD, FIRST_STMT, KINDS, RUN};
use crate::outline::{outline, Node};
use crate::record::Record;
use tokens::encoding::Refusal;

/// The number of a tree that breaks the profile.
pub const BROKEN: u32 = 11;
/// The deepest that a record may stand. The root stands at 1, also if it is a Cmd.
pub const DEEPEST: usize = 24;

pub const ALTER_TABLE: u16 = 32;
pub const CREATE_INDEX: u16 = 37;
pub const CREATE_TABLE: u16 = 38;
pub const DROP_INDEX: u16 = 45;
pub const DROP_TABLE: u16 = 46;

/// The statements that may be received.
pub const STATEMENTS: [u16; 5] = [
    CREATE_TABLE,
    CREATE_INDEX,
    DROP_TABLE,
    DROP_INDEX,
    ALTER_TABLE,
];

impl Case {
    /// The model's answer for the profile: that of measure if it refuses, then the first record that breaks the profile, (0, 0)
    /// if none does.
    pub fn profile_refusal(&self) -> Refusal {
        match self.refusal() {
            (0, _) => first_break(&self.tree).map_or((0, 0), |index| (BROKEN, index)),
            refusal => refusal,
        }
    }
}

/// The first record, by index, that breaks the profile. The tree must be admitted.
pub fn first_break(tree: &[u8]) -> Option<u32> {
    let nodes = outline(tree);
    let broken = nodes.iter().find(|node| breaks(tree, node));
    broken.map(|node| node.index as u32)
}

/// Whether this record breaks the profile, whatever the others do.
fn breaks(tree: &[u8], node: &Node) -> bool {
    let record = Record::read(tree, node.index).expect("an admitted tree");
    let wrong_statement = match node.above {
        None => !STATEMENTS.contains(&record.kind) && !is_plain_cmd(&record),
        Some(above) => above.kind == CMD && !STATEMENTS.contains(&record.kind),
    };
    let run_for_node = record.kind == RUN && takes_node(node.slot);
    wrong_statement || run_for_node || node.depth > DEEPEST
}

/// A Cmd with flags 0: no EXPLAIN.
fn is_plain_cmd(record: &Record) -> bool {
    record.kind == CMD && record.flags == 0
}

/// Whether a ported node may stand in this place: a kind from 32 up.
fn takes_node(slot: &Slot) -> bool {
    let mut kinds = KINDS.iter().map(|kind| kind.number);
    kinds.any(|kind| kind >= FIRST_STMT && takes(slot, kind))
}
