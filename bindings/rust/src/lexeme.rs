//! A text, cut into lexemes.

use crate::calls::{self, Cut};
use std::error::Error;
use std::fmt;
use std::iter::FusedIterator;
use std::ops::Range;

/// What a lexeme is.
#[derive(Clone, Copy, Debug, PartialEq, Eq, Hash)]
pub enum LexemeKind {
    /// A letter, `_` or a byte from 80 (hex), then those, digits and `$`.
    Word,
    /// Digits, and a dot and digits if a digit follows the dot.
    Number,
    /// From `'`, `"` or a backtick to the first like one that is not doubled.
    Quoted,
    /// `X` or `x` with `'` next, through the next `'`.
    Blob,
    /// One of `?`, `:`, `@` and `$`, and all bytes of words behind it.
    Variable,
    /// All bytes out of `+ - * / % = < > ! & | ~` that stand there.
    Operator,
    /// One of `, ; ( ) . [ ]`.
    Mark,
}

/// By the number that the call answers, from 1.
const KINDS: [LexemeKind; 7] = [
    LexemeKind::Word,
    LexemeKind::Number,
    LexemeKind::Quoted,
    LexemeKind::Blob,
    LexemeKind::Variable,
    LexemeKind::Operator,
    LexemeKind::Mark,
];

impl LexemeKind {
    /// Its name, as the program `cut` prints it.
    ///
    /// ```
    /// assert_eq!(kinyandoma::LexemeKind::Quoted.name(), "quoted");
    /// ```
    pub fn name(self) -> &'static str {
        match self {
            LexemeKind::Word => "word",
            LexemeKind::Number => "number",
            LexemeKind::Quoted => "quoted",
            LexemeKind::Blob => "blob",
            LexemeKind::Variable => "variable",
            LexemeKind::Operator => "operator",
            LexemeKind::Mark => "mark",
        }
    }
}

impl fmt::Display for LexemeKind {
    fn fmt(&self, f: &mut fmt::Formatter<'_>) -> fmt::Result {
        f.write_str(self.name())
    }
}

/// A lexeme of a text.
#[derive(Clone, Debug, PartialEq, Eq)]
pub struct Lexeme<'a> {
    /// What it is.
    pub kind: LexemeKind,
    /// Where it stands in the text.
    pub range: Range<usize>,
    /// Its bytes.
    pub spelling: &'a [u8],
}

/// Where a text cannot be read on: a byte that begins no lexeme, a tab among them, or a quote that is not closed.
#[derive(Clone, Copy, Debug, PartialEq, Eq)]
pub struct Unreadable {
    /// The first byte of what could not be read.
    pub at: usize,
}

impl fmt::Display for Unreadable {
    fn fmt(&self, f: &mut fmt::Formatter<'_>) -> fmt::Result {
        let at = self.at;
        write!(f, "no lexeme can be read from byte {at} on: close the quote that begins there, or take out the byte")
    }
}

impl Error for Unreadable {}

/// Cuts a text into its lexemes, from end to end. Any bytes are cut, in a text of any length.
///
/// Spaces and newlines between lexemes are skipped. What a [`Stream`](crate::Stream) writes for tokens that are one lexeme
/// each, with no dot beside a number, is cut into just these.
///
/// ```
/// use kinyandoma::{lexemes, LexemeKind, Unreadable};
///
/// let cut = lexemes("a, 1").map(|lexeme| lexeme.map(|lexeme| (lexeme.kind, lexeme.range)));
/// let cut: Result<Vec<_>, Unreadable> = cut.collect();
/// let due = vec![(LexemeKind::Word, 0..1), (LexemeKind::Mark, 1..2), (LexemeKind::Number, 3..4)];
/// assert_eq!(cut, Ok(due));
/// ```
///
/// A failure is told once, behind the lexemes before it:
///
/// ```
/// use kinyandoma::{lexemes, Unreadable};
///
/// let mut cut = lexemes("note 'left open");
/// assert_eq!(cut.next().unwrap()?.spelling, b"note");
/// assert_eq!(cut.next(), Some(Err(Unreadable { at: 5 })));
/// assert_eq!(cut.next(), None);
/// # Ok::<(), Unreadable>(())
/// ```
pub fn lexemes<T: AsRef<[u8]> + ?Sized>(text: &T) -> Lexemes<'_> {
    let text = text.as_ref();
    Lexemes {
        text,
        from: 0,
        ended: false,
    }
}

/// The lexemes of a text in order, and at the end its failure, if it has one. [`lexemes`] makes it.
#[derive(Clone, Debug)]
pub struct Lexemes<'a> {
    text: &'a [u8],
    /// Where the rest starts.
    from: usize,
    /// Whether the end or the failure was found.
    ended: bool,
}

impl<'a> Lexemes<'a> {
    /// What is not cut yet: right behind the last lexeme; behind a failure, from what could not be read on.
    ///
    /// ```
    /// use kinyandoma::lexemes;
    ///
    /// let mut cut = lexemes("a, 1");
    /// cut.next();
    /// assert_eq!(cut.rest(), b", 1");
    /// ```
    pub fn rest(&self) -> &'a [u8] {
        &self.text[self.from..]
    }
}

impl<'a> Iterator for Lexemes<'a> {
    type Item = Result<Lexeme<'a>, Unreadable>;

    fn next(&mut self) -> Option<Self::Item> {
        if self.ended {
            return None;
        }
        let Cut {
            number,
            start,
            rest,
        } = calls::lexeme(self.rest());
        let range = self.from + start..self.from + rest;
        self.from = range.end;
        let kind = (number as usize)
            .checked_sub(1)
            .and_then(|at| KINDS.get(at));
        self.ended = kind.is_none();
        match kind {
            Some(&kind) => {
                let spelling = &self.text[range.clone()];
                Some(Ok(Lexeme {
                    kind,
                    range,
                    spelling,
                }))
            }
            None => (number == calls::STOP).then_some(Err(Unreadable { at: range.start })),
        }
    }
}

impl FusedIterator for Lexemes<'_> {}
