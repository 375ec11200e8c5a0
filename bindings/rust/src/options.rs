//! What a caller may switch on, and which edition is written.

/// Options of [`measure_with`](crate::measure_with) and its like: switches, all of them off at the start.
///
/// ```
/// use kinyandoma::Options;
///
/// let options = Options::new().strict(true).sqlite(true);
/// assert!(options.is_strict() && options.is_sqlite());
/// assert_eq!(Options::new(), Options::default());
/// ```
#[derive(Clone, Copy, Debug, Default, PartialEq, Eq, Hash)]
pub struct Options {
    bits: u32,
}

/// KINYANDOMA_STRICT and KINYANDOMA_SQLITE of include/kinyandoma.h.
const STRICT: u32 = 1;
const SQLITE: u32 = 2;

impl Options {
    /// All switches off, and the crate's edition: the calls do what those without options do.
    pub const fn new() -> Options {
        Options { bits: 0 }
    }

    /// Whether a CHECK is refused whose source would swallow the bracket behind it, since the source ends inside a block
    /// comment or inside a quote. The refusal is [`Reason::OpenSource`](crate::Reason::OpenSource), 9.
    ///
    /// ```
    /// use kinyandoma::{measure, measure_with, Kind, Node, Options, Reason, Run};
    ///
    /// let check = Node::new(Kind::Check).child(Run::new()).text("kwh >= 0 /* no credit");
    /// let (tree, text) = check.finish()?;
    /// assert!(measure(&tree, &text).is_ok());
    /// let refusal = measure_with(Options::new().strict(true), &tree, &text).unwrap_err();
    /// assert_eq!((refusal.number, refusal.place), (9, 2));
    /// assert_eq!(refusal.reason, Reason::OpenSource);
    /// # Ok::<(), Box<dyn std::error::Error>>(())
    /// ```
    ///
    /// A source that ends inside a `--` comment is written: a newline is written behind it.
    pub const fn strict(self, on: bool) -> Options {
        self.with(STRICT, on)
    }

    /// Whether [`strict`](Options::strict) is on.
    pub const fn is_strict(self) -> bool {
        self.bits & STRICT != 0
    }

    /// Whether the text is written as SQLite reads it, in the SQLite edition, and not in the crate's.
    ///
    /// There is a comma between the two options of a table:
    ///
    /// ```
    /// use kinyandoma::{render_to_string, render_to_string_with, Kind, Node, Options};
    ///
    /// let body = Node::new(Kind::ColumnsAndConstraints).empty_list().empty_list();
    /// let (tree, text) = body.text("WITHOUT ROWID").text("STRICT").finish()?;
    /// assert_eq!(render_to_string(&tree, &text)?, "() WITHOUT ROWID STRICT");
    /// let sqlite = Options::new().sqlite(true);
    /// assert_eq!(render_to_string_with(sqlite, &tree, &text)?, "() WITHOUT ROWID, STRICT");
    /// # Ok::<(), Box<dyn std::error::Error>>(())
    /// ```
    ///
    /// A quote inside the text of an operator is doubled:
    ///
    /// ```
    /// use kinyandoma::{render_to_string_with, Kind, Node, Options};
    ///
    /// let (tree, text) = Node::new(Kind::OperatorClause).text("it's").none().finish()?;
    /// let sqlite = Options::new().sqlite(true);
    /// assert_eq!(render_to_string_with(sqlite, &tree, &text)?, "OPERATOR 'it''s'");
    /// # Ok::<(), Box<dyn std::error::Error>>(())
    /// ```
    ///
    /// A without-rowid text is refused unless its two parts are WITHOUT and ROWID, each letter in either case. The refusal is
    /// [`Reason::WithoutRowid`](crate::Reason::WithoutRowid), 10:
    ///
    /// ```
    /// use kinyandoma::{measure, measure_with, Kind, Node, Options, Reason};
    ///
    /// let body = Node::new(Kind::ColumnsAndConstraints).empty_list().empty_list();
    /// let (tree, text) = body.text("WITHOUT MEMORY").none().finish()?;
    /// assert!(measure(&tree, &text).is_ok());
    /// let refusal = measure_with(Options::new().sqlite(true), &tree, &text).unwrap_err();
    /// assert_eq!((refusal.number, refusal.place), (10, 3));
    /// assert_eq!(refusal.reason, Reason::WithoutRowid);
    /// # Ok::<(), Box<dyn std::error::Error>>(())
    /// ```
    pub const fn sqlite(self, on: bool) -> Options {
        self.with(SQLITE, on)
    }

    /// Whether [`sqlite`](Options::sqlite) is on.
    pub const fn is_sqlite(self) -> bool {
        self.bits & SQLITE != 0
    }

    /// The same with a bit set or cleared.
    const fn with(self, bit: u32, on: bool) -> Options {
        let bits = match on {
            true => self.bits | bit,
            false => self.bits & !bit,
        };
        Options { bits }
    }

    /// The number that crosses to the library, as include/kinyandoma.h has it.
    pub const fn bits(self) -> u32 {
        self.bits
    }

    /// The options of such a number. The calls ignore bits that mean nothing; here they are kept.
    pub const fn from_bits(bits: u32) -> Options {
        Options { bits }
    }
}
