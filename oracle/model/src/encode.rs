//! From values of the crate's own types to a tree and its text.

mod clause;
mod edition;
mod select;
mod statement;
mod writer;
mod written;

use tokens::token::Token;
use turso_parser::ast::{Cmd, EqpFormat};
pub use writer::Writer;
pub use written::Written;

/// A value that has a kind of its own.
pub trait Encode: Written {
    fn encode(&self, out: &mut Writer);
}

/// Tree and text.
pub type Pair = (Vec<u8>, Vec<u8>);

/// A Cmd as root.
pub fn encode_cmd(cmd: &Cmd) -> Pair {
    encode(cmd)
}

/// Any value as root.
pub fn encode(value: &dyn Encode) -> Pair {
    encode_by(Writer::default(), value)
}

/// A root LIST.
pub fn encode_list(values: &[Box<dyn Encode>]) -> Pair {
    encode_list_by(Writer::default(), values)
}

/// By a writer that may draw RUNs.
pub fn encode_by(mut out: Writer, value: &dyn Encode) -> Pair {
    value.encode(&mut out);
    out.pair()
}

/// By a writer that may draw RUNs, for the elements too.
pub fn encode_list_by(mut out: Writer, values: &[Box<dyn Encode>]) -> Pair {
    out.list_of(values, |out, value| out.node(&**value));
    out.pair()
}

impl Encode for Cmd {
    fn encode(&self, out: &mut Writer) {
        let (flags, stmt) = match self {
            Cmd::Stmt(stmt) => (0, stmt),
            Cmd::Explain(stmt) => (1, stmt),
            Cmd::ExplainQueryPlan { stmt, format } => {
                let json = *format == EqpFormat::Json;
                (if json { 3 } else { 2 }, stmt)
            }
        };
        out.flagged(10, flags);
        out.node(stmt);
    }
}

/// A RUN of any tokens.
impl Encode for Vec<Token> {
    fn encode(&self, out: &mut Writer) {
        out.tokens(self);
    }
}
