//! Flat trees from Rust values: nobody counts bytes, records or children.

use crate::kind::{Flag, Kind};
use crate::token::Token;
use crate::writer::{EncodeError, Writer};
use std::ops::Range;

/// What stands in a slot, in a list, or at the root.
#[derive(Clone, Debug, PartialEq, Eq)]
pub enum Part {
    /// Nothing: an optional slot that is not filled.
    None,
    /// A text that the renderer itself appends.
    Text(String),
    /// An integer.
    Number(i64),
    /// Elements, one place each.
    List(Vec<Part>),
    /// Tokens as they are.
    Run(Run),
    /// A kind with its flags and slots.
    Node(Node),
}

/// A kind with its flags and what stands in its slots, in their order.
///
/// ```
/// use kinyandoma::{render_to_string, Flag, Kind, Node};
///
/// let drop = Node::new(Kind::DropType).flag(Flag::IfExists).text("geo");
/// let (tree, text) = Node::new(Kind::Cmd).child(drop).finish()?;
/// assert_eq!(render_to_string(&tree, &text)?, "DROP TYPE IF EXISTS geo;");
/// # Ok::<(), Box<dyn std::error::Error>>(())
/// ```
#[derive(Clone, Debug, PartialEq, Eq)]
pub struct Node {
    pub(crate) kind: Kind,
    pub(crate) bits: u16,
    pub(crate) flags: Vec<Flag>,
    pub(crate) children: Vec<Part>,
}

/// Tokens in a row, for whatever has no kind of its own: names, expressions, column constraints.
///
/// ```
/// use kinyandoma::{render_to_string, Run, Token};
///
/// let run = Run::new().id("kwh").token(Token::TK_GE).value(Token::TK_INTEGER, "0");
/// let (tree, text) = run.finish()?;
/// assert_eq!(render_to_string(&tree, &text)?, "kwh >= 0");
/// # Ok::<(), Box<dyn std::error::Error>>(())
/// ```
#[derive(Clone, Debug, Default, PartialEq, Eq)]
pub struct Run {
    pub(crate) tokens: Vec<(Token, Option<String>)>,
}

/// A list of such parts.
///
/// ```
/// use kinyandoma::{list, render_to_string, Run};
///
/// let (tree, text) = list([Run::new().id("a"), Run::new().id("b")]).finish()?;
/// assert_eq!(render_to_string(&tree, &text)?, "a, b");
/// # Ok::<(), Box<dyn std::error::Error>>(())
/// ```
pub fn list<P: Into<Part>>(elements: impl IntoIterator<Item = P>) -> Part {
    Part::List(elements.into_iter().map(P::into).collect())
}

/// A text.
pub fn text(text: impl Into<String>) -> Part {
    Part::Text(text.into())
}

/// A RUN of one TK_ID: a name, most often.
pub fn id(name: impl Into<String>) -> Run {
    Run::new().id(name)
}

impl Part {
    /// The tree and its text, as [`measure`](crate::measure) and [`render`](crate::render) take them.
    ///
    /// Equal texts are stored once. Whether each part may stand where it does is for the calls to say.
    pub fn finish(&self) -> Result<(Vec<u8>, Vec<u8>), EncodeError> {
        let mut writer = Writer::default();
        writer.tree(self)?;
        Ok(writer.pair())
    }
}

/// Trees one behind the other, over one text: what [`render_jobs`](crate::render_jobs) takes.
///
/// ```
/// use kinyandoma::{id, Trees};
///
/// let mut trees = Trees::new();
/// assert_eq!(trees.add(id("meters"))?, 0..32);
/// assert_eq!(trees.add(id("readings"))?, 32..64);
/// assert_eq!(trees.ranges(), [0..32, 32..64]);
/// assert_eq!(trees.text(), b"metersreadings");
/// # Ok::<(), kinyandoma::EncodeError>(())
/// ```
#[derive(Clone, Debug, Default)]
pub struct Trees {
    writer: Writer,
    ranges: Vec<Range<usize>>,
}

impl Trees {
    /// No trees, and no text.
    pub fn new() -> Trees {
        Trees::default()
    }

    /// Puts a tree behind the others, and answers where it stands. Equal texts are stored once for all trees.
    ///
    /// A tree that cannot be said is not added. A text for all may be as long as that of one tree, so that a large schema takes
    /// more than one `Trees`.
    pub fn add(&mut self, root: impl Into<Part>) -> Result<Range<usize>, EncodeError> {
        let range = self.writer.tree(&root.into())?;
        self.ranges.push(range.clone());
        Ok(range)
    }

    /// All trees.
    pub fn trees(&self) -> &[u8] {
        self.writer.trees()
    }

    /// Where each of them stands, in the order in which they were added.
    pub fn ranges(&self) -> &[Range<usize>] {
        &self.ranges
    }

    /// The text that they name parts of.
    pub fn text(&self) -> &[u8] {
        self.writer.text()
    }
}

impl Node {
    /// A kind with no flag and no slot filled yet.
    pub fn new(kind: Kind) -> Node {
        Node {
            kind,
            bits: 0,
            flags: Vec::new(),
            children: Vec::new(),
        }
    }

    /// Sets a flag by name.
    pub fn flag(mut self, flag: Flag) -> Node {
        self.flags.push(flag);
        self
    }

    /// Sets the flags as a number: EXPLAIN of a Cmd, MATERIALIZED of a CommonTableExpr, or bits.
    pub fn flags(mut self, bits: u16) -> Node {
        self.bits = bits;
        self
    }

    /// Fills the next slot; with `Option::None` it is a NONE.
    pub fn child(mut self, part: impl Into<Part>) -> Node {
        self.children.push(part.into());
        self
    }

    /// Fills the next slot with NONE.
    pub fn none(self) -> Node {
        self.child(Part::None)
    }

    /// Fills the next slot with a text.
    pub fn text(self, text: impl Into<String>) -> Node {
        self.child(Part::Text(text.into()))
    }

    /// Fills the next slot with a RUN of one TK_ID.
    pub fn id(self, name: impl Into<String>) -> Node {
        self.child(id(name))
    }

    /// Fills the next slot with a list.
    pub fn list<P: Into<Part>>(self, elements: impl IntoIterator<Item = P>) -> Node {
        self.child(list(elements))
    }

    /// Fills the next slot with a list that has no elements.
    pub fn empty_list(self) -> Node {
        self.child(Part::List(Vec::new()))
    }

    /// As [`Part::finish`], with this kind at the root.
    pub fn finish(self) -> Result<(Vec<u8>, Vec<u8>), EncodeError> {
        Part::from(self).finish()
    }
}

impl Run {
    /// No tokens.
    pub fn new() -> Run {
        Run::default()
    }

    /// Tokens without values.
    pub fn of(tokens: impl IntoIterator<Item = Token>) -> Run {
        tokens.into_iter().fold(Run::new(), Run::token)
    }

    /// One more token, without a value.
    pub fn token(mut self, token: impl Into<Token>) -> Run {
        self.tokens.push((token.into(), None));
        self
    }

    /// One more token, with a value.
    pub fn value(mut self, token: impl Into<Token>, value: impl Into<String>) -> Run {
        self.tokens.push((token.into(), Some(value.into())));
        self
    }

    /// One more TK_ID.
    pub fn id(self, name: impl Into<String>) -> Run {
        self.value(Token::TK_ID, name)
    }

    /// As [`Part::finish`], with this RUN at the root.
    pub fn finish(self) -> Result<(Vec<u8>, Vec<u8>), EncodeError> {
        Part::from(self).finish()
    }
}

impl From<Node> for Part {
    fn from(node: Node) -> Part {
        Part::Node(node)
    }
}

impl From<Run> for Part {
    fn from(run: Run) -> Part {
        Part::Run(run)
    }
}

impl From<i64> for Part {
    fn from(number: i64) -> Part {
        Part::Number(number)
    }
}

impl<P: Into<Part>> From<Option<P>> for Part {
    fn from(part: Option<P>) -> Part {
        part.map_or(Part::None, P::into)
    }
}
