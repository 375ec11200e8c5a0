//! What measure and render have to answer for any tree and text.

use entries::interpret::{corners, node};
use entries::{read, written, Grammar};
use model::damage::Case;
use model::options::Edition;
use model::samples::Judged;
use tokens::judge::text_of;

/// The definition, as it stands when this is built.
pub const SOURCES: [&str; 4] = [
    include_str!("../../../../crates/spelling/specs/Token.antt"),
    include_str!("../../../../crates/grammar/specs/Kind.antt"),
    include_str!("../../../../crates/grammar/specs/Shape.antt"),
    include_str!("../../../../crates/grammar/specs/Grammar.antt"),
];

/// The entries of the definition.
pub struct Judge {
    grammar: Grammar,
}

impl Judge {
    pub fn new() -> Result<Judge, String> {
        let grammar = read(SOURCES)?;
        Ok(Judge { grammar })
    }

    /// The model's refusal, or what the crate's stream writes for the tokens of the entries.
    pub fn judged(&self, case: Case) -> Result<Judged, String> {
        let expected = match case.refusal() {
            (0, _) => Ok(self.text(&case)?),
            refusal => Err(refusal),
        };
        Ok(Judged { case, expected })
    }

    fn text(&self, case: &Case) -> Result<String, String> {
        let root = node(&case.tree)?;
        let corners = corners(Edition::of(case.options));
        let tokens = written(&self.grammar, corners, &root, &case.text)?;
        Ok(text_of(&tokens))
    }
}
