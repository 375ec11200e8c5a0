//! Schema text, to the byte: safe calls of `libkinyandoma.a`, and an encoder of flat trees.
//!
//! A statement is built from [`Node`]s, [`Run`]s of tokens, lists and texts, and rendered:
//!
//! ```
//! use kinyandoma::{render_to_string, Flag, Kind, Node, Run, Token};
//!
//! let not_null = Run::of([Token::TK_NOT, Token::TK_NULL]);
//! let of_type = Node::new(Kind::TypeName).text("INTEGER").none().child(0);
//! let column = Node::new(Kind::ColumnDefinition).id("meter").child(of_type).list([not_null]);
//! let columns = Node::new(Kind::ColumnsAndConstraints).list([column]).empty_list().none().none();
//! let table = Node::new(Kind::CreateTable).flag(Flag::IfNotExists).id("readings").child(columns);
//!
//! let (tree, text) = Node::new(Kind::Cmd).child(table).finish()?;
//! assert_eq!(
//!     render_to_string(&tree, &text)?,
//!     "CREATE TABLE IF NOT EXISTS readings (meter INTEGER NOT NULL);"
//! );
//! # Ok::<(), Box<dyn std::error::Error>>(())
//! ```
//!
//! Many trees over one text, a whole schema, are rendered by one call: [`render_jobs`].
//!
//! A host that has tokens already writes them with a [`Stream`]. What a call refuses comes back as a [`Refusal`], with
//! number and place; nothing is written then. [`Options`] let a caller have more refused, or have the text written as SQLite
//! reads it, by the calls whose names end in `_with`.
//!
//! [`lexemes`] cuts a schema text, or any other bytes, into its lexemes.

#![warn(missing_docs)]
#![forbid(unsafe_op_in_unsafe_fn)]

mod calls;
mod jobs;
mod kind;
mod lexeme;
mod options;
mod refusal;
mod stream;
mod token;
mod tree;
mod writer;

pub use jobs::{
    render_jobs, render_jobs_to_strings, render_jobs_to_strings_with, render_jobs_with, Rendered,
    Texts,
};
pub use kind::{
    Flag, Kind, EXPLAIN, EXPLAIN_QUERY_PLAN, EXPLAIN_QUERY_PLAN_JSON, MATERIALIZED,
    NOT_MATERIALIZED,
};
pub use lexeme::{lexemes, Lexeme, LexemeKind, Lexemes, Unreadable};
pub use options::Options;
pub use refusal::{Reason, Refusal, MOST_BYTES};
pub use stream::Stream;
pub use token::Token;
pub use tree::{id, list, text, Node, Part, Run, Trees};
pub use writer::{EncodeError, MOST_RECORDS};

use refusal::{settled, Asked};

/// How long the text of a tree is.
///
/// `tree` is a row of 16-byte records, `text` the UTF-8 text that they name parts of. Any bytes are answered.
///
/// ```
/// use kinyandoma::{id, measure};
///
/// let (tree, text) = id("readings").finish()?;
/// assert_eq!(measure(&tree, &text)?, 8);
/// assert_eq!(measure(&tree, b"").unwrap_err().number, 5);
/// # Ok::<(), Box<dyn std::error::Error>>(())
/// ```
pub fn measure(tree: &[u8], text: &[u8]) -> Result<usize, Refusal> {
    settled(Asked::Tree, calls::measure(tree, text))
}

/// Writes the text of a tree to `out` and answers its length; what stands behind it stays.
///
/// Room for exactly the length is enough. With less, the refusal's place is the length:
///
/// ```
/// use kinyandoma::{id, render};
///
/// let (tree, text) = id("readings").finish()?;
/// let mut out = *b"..........";
/// let refusal = render(&tree, &text, &mut out[..7]).unwrap_err();
/// assert_eq!((refusal.number, refusal.place), (8, 8));
/// assert_eq!(render(&tree, &text, &mut out)?, 8);
/// assert_eq!(&out, b"readings..");
/// # Ok::<(), Box<dyn std::error::Error>>(())
/// ```
pub fn render(tree: &[u8], text: &[u8], out: &mut [u8]) -> Result<usize, Refusal> {
    settled(Asked::Tree, calls::render(tree, text, out))
}

/// The text of a tree, in a vector of just its length.
///
/// ```
/// use kinyandoma::{id, render_to_vec};
///
/// let (tree, text) = id("readings").finish()?;
/// assert_eq!(render_to_vec(&tree, &text)?, b"readings");
/// # Ok::<(), Box<dyn std::error::Error>>(())
/// ```
pub fn render_to_vec(tree: &[u8], text: &[u8]) -> Result<Vec<u8>, Refusal> {
    let mut out = vec![0; measure(tree, text)?];
    render(tree, text, &mut out)?;
    Ok(out)
}

/// The text of a tree as a string.
///
/// # Panics
/// Never: whole characters of UTF-8 are all that a tree's text is made of.
pub fn render_to_string(tree: &[u8], text: &[u8]) -> Result<String, Refusal> {
    Ok(string(render_to_vec(tree, text)?))
}

/// As [`measure`], with options.
///
/// ```
/// use kinyandoma::{id, measure, measure_with, Options};
///
/// let (tree, text) = id("readings").finish()?;
/// assert_eq!(measure_with(Options::new(), &tree, &text), measure(&tree, &text));
/// # Ok::<(), Box<dyn std::error::Error>>(())
/// ```
pub fn measure_with(options: Options, tree: &[u8], text: &[u8]) -> Result<usize, Refusal> {
    settled(Asked::Tree, calls::measure_with(options.bits(), tree, text))
}

/// As [`render`], with options.
///
/// ```
/// use kinyandoma::{render_with, Kind, Node, Options, Run};
///
/// let check = Node::new(Kind::Check).child(Run::new()).text("note <> '");
/// let (tree, text) = check.finish()?;
/// let mut out = [0; 17];
/// assert!(render_with(Options::new().strict(true), &tree, &text, &mut out).is_err());
/// assert_eq!(out, [0; 17]);
/// assert_eq!(render_with(Options::new(), &tree, &text, &mut out)?, 17);
/// assert_eq!(&out, b"CHECK (note <> ')");
/// # Ok::<(), Box<dyn std::error::Error>>(())
/// ```
pub fn render_with(
    options: Options,
    tree: &[u8],
    text: &[u8],
    out: &mut [u8],
) -> Result<usize, Refusal> {
    settled(
        Asked::Tree,
        calls::render_with(options.bits(), tree, text, out),
    )
}

/// As [`render_to_vec`], with options.
pub fn render_to_vec_with(options: Options, tree: &[u8], text: &[u8]) -> Result<Vec<u8>, Refusal> {
    let mut out = vec![0; measure_with(options, tree, text)?];
    render_with(options, tree, text, &mut out)?;
    Ok(out)
}

/// As [`render_to_string`], with options.
///
/// # Panics
/// Never, as [`render_to_string`].
pub fn render_to_string_with(
    options: Options,
    tree: &[u8],
    text: &[u8],
) -> Result<String, Refusal> {
    Ok(string(render_to_vec_with(options, tree, text)?))
}

/// How long the text of a tree is, as [`measure`] tells it, if the tree is of the field profile.
///
/// The profile is what a unit under the small contract may receive: CREATE TABLE, CREATE INDEX, DROP TABLE, DROP INDEX or
/// ALTER TABLE, alone or in a [`Kind::Cmd`] without flags, with no RUN where a [`Node`] may stand, and nested at most
/// 24 deep, the Cmd counted. What [`measure`] refuses is refused as there; a tree that breaks the profile is refused with 11
/// and the first record that breaks it. [`render`] writes the same bytes for a tree, whether it is of the profile or not.
///
/// ```
/// use kinyandoma::{id, measure, profile, Kind, Node, Reason};
///
/// let (tree, text) = Node::new(Kind::DropTable).child(id("readings")).finish()?;
/// assert_eq!(profile(&tree, &text)?, "DROP TABLE readings".len());
///
/// let view = Node::new(Kind::DropView).child(id("latest"));
/// let (tree, text) = Node::new(Kind::Cmd).child(view).finish()?;
/// assert!(measure(&tree, &text).is_ok());
/// let refusal = profile(&tree, &text).unwrap_err();
/// assert_eq!((refusal.number, refusal.place), (11, 1));
/// assert_eq!(refusal.reason, Reason::Profile);
/// # Ok::<(), Box<dyn std::error::Error>>(())
/// ```
pub fn profile(tree: &[u8], text: &[u8]) -> Result<usize, Refusal> {
    profile_with(Options::new(), tree, text)
}

/// As [`profile`], with options: what [`measure_with`] refuses is refused as there.
///
/// ```
/// use kinyandoma::{id, profile_with, Kind, Node, Options};
///
/// let (tree, text) = Node::new(Kind::DropIndex).child(id("by_meter")).finish()?;
/// let options = Options::new().strict(true).sqlite(true);
/// assert_eq!(profile_with(options, &tree, &text)?, "DROP INDEX by_meter".len());
/// # Ok::<(), Box<dyn std::error::Error>>(())
/// ```
pub fn profile_with(options: Options, tree: &[u8], text: &[u8]) -> Result<usize, Refusal> {
    settled(Asked::Tree, calls::profile(options.bits(), tree, text))
}

/// What a call has written.
fn string(bytes: Vec<u8>) -> String {
    String::from_utf8(bytes).expect("whole characters of UTF-8")
}
