//! The entries of the grammar's definition: read, and written by.

pub mod faults;
pub mod interpret;
pub mod places;
pub mod reader;
pub mod shape;

use interpret::{Corners, Interpreter, Node};
use reader::Definitions;
use shape::{Class, Table};
use tokens::token::{kind_of, Token};

/// The entries, and what may be the root.
pub struct Grammar {
    pub table: Table,
    pub root: Class,
}

/// The files of the definition in the spelling's folder, to be read first.
pub const SPELLING_FILES: [&str; 1] = ["Token.antt"];
/// The files of the definition in the grammar's folder.
pub const GRAMMAR_FILES: [&str; 3] = ["Kind.antt", "Shape.antt", "Grammar.antt"];

/// From the sources of the files, in their order.
pub fn read<'a>(sources: impl IntoIterator<Item = &'a str>) -> Result<Grammar, String> {
    let mut definitions = Definitions::default();
    for source in sources {
        definitions.read(source)?;
    }
    Ok(Grammar {
        table: shape::table(&definitions)?,
        root: shape::root(&definitions)?,
    })
}

/// The tokens that the entries write for a tree.
pub fn written(
    grammar: &Grammar,
    corners: Corners,
    root: &Node,
    text: &[u8],
) -> Result<Vec<Token>, String> {
    let mut interpreter = Interpreter {
        table: &grammar.table,
        corners,
        text: std::str::from_utf8(text).map_err(|error| error.to_string())?,
        out: vec![],
    };
    interpreter.root(&grammar.root, root)?;
    let unknown = |token: &&Token| kind_of(token.number).is_none();
    match interpreter.out.iter().find(unknown) {
        Some(token) => Err(format!("unknown token {}", token.number)),
        None => Ok(interpreter.out),
    }
}
