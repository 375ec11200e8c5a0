//! Which record of a good tree stands in which slot.

use crate::check::slot_of_every_child;
use crate::grammar::{row, Slot, ROOT};
use crate::record::Record;

pub struct Node {
    pub index: usize,
    /// The index past all that is below.
    pub end: usize,
    pub slot: &'static Slot,
    pub depth: usize,
    /// None for the root.
    pub above: Option<Above>,
}

/// The record above, and the place below it.
#[derive(Clone, Copy)]
pub struct Above {
    pub index: usize,
    pub kind: u16,
    pub child: usize,
}

/// The nodes by index. The tree must be admitted.
pub fn outline(tree: &[u8]) -> Vec<Node> {
    let mut nodes = Vec::with_capacity(tree.len() / crate::record::SIZE);
    visit(tree, &mut nodes, &ROOT, 1, None);
    nodes
}

fn visit(
    tree: &[u8],
    nodes: &mut Vec<Node>,
    slot: &'static Slot,
    depth: usize,
    above: Option<Above>,
) {
    let index = nodes.len();
    let record = Record::read(tree, index).expect("an admitted tree");
    nodes.push(Node {
        index,
        end: index,
        slot,
        depth,
        above,
    });
    for child in 0..usize::from(record.children) {
        let slot = match slot_of_every_child(record.kind, slot) {
            Some(every) => every,
            None => &row(record.kind).expect("an admitted tree").slots[child],
        };
        let kind = record.kind;
        let above = Above { index, kind, child };
        visit(tree, nodes, slot, depth + 1, Some(above));
    }
    nodes[index].end = nodes.len();
}
