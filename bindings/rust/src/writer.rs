//! Parts as records: 16 bytes each, children behind their parent.

use crate::kind::{Flag, Kind};
use crate::refusal::MOST_BYTES;
use crate::stream::VALUE_PRESENT;
use crate::token::Token;
use crate::tree::{Node, Part, Run};
use std::collections::HashMap;
use std::fmt;
use std::ops::Range;

/// Bytes of a record.
const SIZE: usize = 16;
/// Most records of a tree.
pub const MOST_RECORDS: usize = MOST_BYTES / SIZE;
/// What each record begins with.
const MARK: [u8; 2] = [0x53, 0x4E];

/// The kinds of leaves and groups.
const NONE: u16 = 0;
const LIST: u16 = 1;
const TOKEN: u16 = 2;
const RUN: u16 = 3;
const TEXT: u16 = 4;
const NUMBER: u16 = 5;

/// Bytes 8 to 15 of a record that does not use them.
const UNUSED: [u8; 8] = [0; 8];

/// Why parts cannot be said as a flat tree.
#[derive(Clone, Copy, Debug, PartialEq, Eq)]
#[non_exhaustive]
pub enum EncodeError {
    /// The tree would have more than 4,096 records.
    TooManyRecords,
    /// The texts would have more than 65,536 bytes in all.
    TextTooLong,
    /// The kind has no such flag.
    NoSuchFlag(Kind, Flag),
    /// A token's number is over 32,767, which a record cannot say.
    TokenNumber(u16),
}

/// Trees that grow, one behind the other over one text.
#[derive(Clone, Debug, Default)]
pub(crate) struct Writer {
    trees: Vec<u8>,
    /// Where the last of them begins.
    begins: usize,
    text: String,
    /// Where each text begins that stands there already.
    starts: HashMap<String, u32>,
}

type Written = Result<(), EncodeError>;

impl Writer {
    /// The trees and their text.
    pub fn pair(self) -> (Vec<u8>, Vec<u8>) {
        (self.trees, self.text.into_bytes())
    }

    /// The trees.
    pub fn trees(&self) -> &[u8] {
        &self.trees
    }

    /// The text that they name parts of.
    pub fn text(&self) -> &[u8] {
        self.text.as_bytes()
    }

    /// One more tree, and where it stands. On an error none is added; what was stored of its texts stays, and nobody names it.
    pub fn tree(&mut self, root: &Part) -> Result<Range<usize>, EncodeError> {
        self.begins = self.trees.len();
        let written = self.part(root);
        if written.is_err() {
            self.trees.truncate(self.begins);
        }
        written.map(|()| self.begins..self.trees.len())
    }

    /// A part with all below it.
    fn part(&mut self, part: &Part) -> Written {
        match part {
            Part::None => self.record(NONE, 0, 0, UNUSED),
            Part::Text(text) => {
                let place = self.place(text)?;
                self.record(TEXT, 0, 0, place)
            }
            Part::Number(number) => self.record(NUMBER, 0, 0, number.to_le_bytes()),
            Part::List(elements) => {
                self.record(LIST, 0, elements.len(), UNUSED)?;
                elements.iter().try_for_each(|element| self.part(element))
            }
            Part::Run(run) => self.run(run),
            Part::Node(node) => self.node(node),
        }
    }

    fn node(&mut self, node: &Node) -> Written {
        let flags = flags(node)?;
        self.record(node.kind.number(), flags, node.children.len(), UNUSED)?;
        node.children.iter().try_for_each(|child| self.part(child))
    }

    fn run(&mut self, run: &Run) -> Written {
        self.record(RUN, 0, run.tokens.len(), UNUSED)?;
        let mut tokens = run.tokens.iter();
        tokens.try_for_each(|(token, value)| self.token(*token, value.as_deref()))
    }

    fn token(&mut self, token: Token, value: Option<&str>) -> Written {
        let number = token.number();
        if number >= VALUE_PRESENT {
            return Err(EncodeError::TokenNumber(number));
        }
        match value {
            None => self.record(TOKEN, number, 0, UNUSED),
            Some(value) => {
                let place = self.place(value)?;
                self.record(TOKEN, number | VALUE_PRESENT, 0, place)
            }
        }
    }

    /// One record, if there may be one more.
    fn record(&mut self, kind: u16, flags: u16, children: usize, rest: [u8; 8]) -> Written {
        if self.trees.len() - self.begins >= MOST_RECORDS * SIZE {
            return Err(EncodeError::TooManyRecords);
        }
        // More children than a record can say are more than a tree may have.
        let children = u16::try_from(children).map_err(|_| EncodeError::TooManyRecords)?;
        self.trees.extend(MARK);
        self.trees.extend(kind.to_le_bytes());
        self.trees.extend(flags.to_le_bytes());
        self.trees.extend(children.to_le_bytes());
        self.trees.extend(rest);
        Ok(())
    }

    /// Start and length of a text, which is stored unless it is there already.
    fn place(&mut self, text: &str) -> Result<[u8; 8], EncodeError> {
        let start = match self.starts.get(text) {
            Some(start) => *start,
            None => self.stored(text)?,
        };
        let mut place = [0; 8];
        place[..4].copy_from_slice(&start.to_le_bytes());
        place[4..].copy_from_slice(&(text.len() as u32).to_le_bytes());
        Ok(place)
    }

    /// Where a text begins that was not there.
    fn stored(&mut self, text: &str) -> Result<u32, EncodeError> {
        if text.len() > MOST_BYTES - self.text.len() {
            return Err(EncodeError::TextTooLong);
        }
        let start = self.text.len() as u32;
        self.text.push_str(text);
        self.starts.insert(text.to_string(), start);
        Ok(start)
    }
}

/// A node's flags as a number.
fn flags(node: &Node) -> Result<u16, EncodeError> {
    let mut bits = node.bits;
    for flag in &node.flags {
        let bit = node.kind.flags().iter().position(|own| own == flag);
        let bit = bit.ok_or(EncodeError::NoSuchFlag(node.kind, *flag))?;
        bits |= 1 << bit;
    }
    Ok(bits)
}

impl fmt::Display for EncodeError {
    fn fmt(&self, f: &mut fmt::Formatter<'_>) -> fmt::Result {
        match self {
            EncodeError::TooManyRecords => {
                write!(f, "a tree has at most {MOST_RECORDS} records; split it")
            }
            EncodeError::TextTooLong => write!(
                f,
                "the texts of a tree have at most {MOST_BYTES} bytes in all; split it"
            ),
            EncodeError::NoSuchFlag(kind, flag) => {
                write!(
                    f,
                    "{kind:?} has no flag {flag:?}; its flags are {:?}",
                    kind.flags()
                )
            }
            EncodeError::TokenNumber(number) => {
                write!(f, "{number} is no token's number; use a number of token.rs")
            }
        }
    }
}

impl std::error::Error for EncodeError {}
