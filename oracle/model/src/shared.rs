//! Trees that share one text (request i): the trees one behind the other, and what they name one behind the other.

use crate::record::{Record, SIZE};
use std::ops::Range;

/// A buffer of trees, and the text for all of them.
#[derive(Clone, Debug, Default)]
pub struct Shared {
    pub trees: Vec<u8>,
    pub text: Vec<u8>,
}

impl Shared {
    /// Puts a tree and its text behind the others. Its parts move with the text; answers where the tree stands.
    pub fn add(&mut self, tree: &[u8], text: &[u8]) -> Range<usize> {
        let start = self.trees.len();
        self.trees.extend(moved(tree, self.text.len()));
        self.text.extend(text);
        start..self.trees.len()
    }
}

/// The tree with each part that a record names so many bytes later. An empty part at the beginning stays there.
pub fn moved(tree: &[u8], by: usize) -> Vec<u8> {
    let mut tree = tree.to_vec();
    for index in 0..tree.len() / SIZE {
        let mut record = Record::read(&tree, index).expect("a whole record");
        if record.names_part() && (record.start, record.length) != (0, 0) {
            record.start = record.start.wrapping_add(by as u32);
            record.write(&mut tree, index);
        }
    }
    tree
}
