//! Names and strings.

use super::Maker;
use tokens::values::{any_kind, letter, wide};
use turso_parser::ast::{As, Indexed, IndexedColumn, Name, QualifiedName, SortOrder};

/// Keywords and other names that the crate puts in quotes.
const QUOTED: [&str; 6] = ["select", "ABORT", "9lives", "a b", "q\"q", "x]y"];

/// Texts that the corners look at.
const TEXTS: [&str; 12] = [
    "",
    " ",
    "WITHOUT ROWID",
    "without\u{A0}rowid",
    " WITHOUT\u{3000}ROWID\u{85}",
    "WITHOUT\u{B}ROWID",
    "without rowid too",
    "STRICT",
    "a--b",
    "it's",
    "\n",
    "\u{1F600}",
];

impl Maker<'_> {
    pub fn name(&mut self) -> Name {
        match self.random.below(16) {
            0 => Name::empty(),
            1 => Name::exact(self.random.pick(&QUOTED).to_string()),
            2 => Name::bracketed(self.word(letter)),
            3 => Name::from_string(format!("`{}`", self.word(letter))),
            4 => Name::from_string(format!("'{}'", self.word(wide))),
            5..=7 => Name::exact(self.word(wide)),
            _ => Name::exact(self.word(letter)),
        }
    }

    /// For a field that is a plain string.
    pub fn string(&mut self) -> String {
        match self.random.below(8) {
            0 | 1 => self.random.pick(&TEXTS).to_string(),
            2 => self.word(any_kind),
            3 | 4 => self.word(wide),
            _ => self.word(letter),
        }
    }

    fn word(&mut self, draw: fn(&mut tokens::random::Random) -> char) -> String {
        let count = self.random.between(1, 5);
        (0..count).map(|_| draw(self.random)).collect()
    }

    pub fn qualified(&mut self) -> QualifiedName {
        QualifiedName {
            db_name: self.rarely(Self::name),
            name: self.name(),
            alias: self.rarely(Self::name),
        }
    }

    pub fn rarely<T>(&mut self, make: fn(&mut Self) -> T) -> Option<T> {
        self.random.one_in(4).then(|| make(self))
    }

    pub fn alias(&mut self) -> As {
        let name = self.name();
        match self.random.below(3) {
            0 => As::As(name),
            1 => As::Elided(name),
            _ => As::ImplicitColumnName(name),
        }
    }

    pub fn indexed(&mut self) -> Indexed {
        match self.bit() {
            true => Indexed::IndexedBy(self.name()),
            false => Indexed::NotIndexed,
        }
    }

    pub fn order(&mut self) -> SortOrder {
        self.random.pick(&[SortOrder::Asc, SortOrder::Desc])
    }

    pub fn indexed_column(&mut self) -> IndexedColumn {
        IndexedColumn {
            col_name: self.name(),
            collation_name: self.rarely(Self::name),
            order: self.maybe(Self::order),
        }
    }
}
