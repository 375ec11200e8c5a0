//! What is timed: a value of the crate beside its tree.

use calls::Answer;
use model::check::check;
use model::encode::Encode;
use model::record::SIZE;
use model::samples::{self, Sample};
use tokens::token::Token;
use turso_parser::token::TokenType;

/// A token as the crate takes it, and as the library does.
pub struct Given {
    pub kind: TokenType,
    pub flags: u16,
    pub value: Option<String>,
}

/// A value of the crate, its tokens and its text, and its tree.
pub struct Item {
    pub value: Box<dyn Encode>,
    pub tokens: Vec<Given>,
    pub expected: String,
    pub tree: Vec<u8>,
    pub text: Vec<u8>,
}

/// Values that are timed together, and what they are called.
pub struct Input {
    pub name: String,
    pub items: Vec<Item>,
}

impl Item {
    /// None where the value's tree is refused.
    pub fn new(value: Box<dyn Encode>) -> Option<Item> {
        let Sample {
            pair, tokens, text, ..
        } = samples::of(&*value);
        let (tree, parts) = pair;
        let admitted = check(&tree, &parts).0 == 0;
        admitted.then(|| Item {
            value,
            tokens: tokens.into_iter().map(given).collect(),
            expected: text,
            tree,
            text: parts,
        })
    }

    pub fn records(&self) -> usize {
        self.tree.len() / SIZE
    }
}

fn given(token: Token) -> Given {
    Given {
        kind: token.kind(),
        flags: token.flags(),
        value: token.value,
    }
}

impl Given {
    pub fn value_bytes(&self) -> &[u8] {
        self.value.as_deref().unwrap_or("").as_bytes()
    }
}

impl Input {
    pub fn new(name: &str, items: Vec<Item>) -> Input {
        Input {
            name: name.to_string(),
            items,
        }
    }

    pub fn records(&self) -> usize {
        self.items.iter().map(Item::records).sum()
    }

    pub fn tokens(&self) -> usize {
        self.items.iter().map(|item| item.tokens.len()).sum()
    }

    /// Bytes of the texts that are written.
    pub fn written(&self) -> usize {
        self.items.iter().map(|item| item.expected.len()).sum()
    }

    /// Room for the longest text.
    pub fn room(&self) -> usize {
        let lengths = self.items.iter().map(|item| item.expected.len());
        lengths.max().unwrap_or(0)
    }
}

/// The answer of a call that is done, with so many bytes.
pub fn done(length: usize) -> Answer {
    Answer {
        number: 0,
        place: length as u32,
    }
}
