//! What a call answers when it does not do what it was asked.

use crate::calls::Answer;
use std::fmt;

/// Most bytes of a tree, of a text and of a value.
pub const MOST_BYTES: usize = 65_536;

/// A refusal: nothing was written, and nothing that was lent has changed.
///
/// Its `Display` says it in plain words, with what to do:
///
/// ```
/// let refusal = kinyandoma::measure(b"no tree", b"").unwrap_err();
/// assert_eq!((refusal.number, refusal.place), (1, 0));
/// assert_eq!(
///     refusal.to_string(),
///     "refused with 1, place 0: the tree is empty, longer than 65536 bytes, or no whole number of 16-byte records; \
///      give one whole tree"
/// );
/// ```
///
/// A text that was cut off on its way is told from one that was never UTF-8:
///
/// ```
/// use kinyandoma::{id, measure, Reason};
///
/// let (tree, text) = id("1 €").finish()?;
/// let cut_off = measure(&tree, &text[..4]).unwrap_err();
/// assert_eq!((cut_off.number, cut_off.place), (12, 2));
/// assert_eq!(cut_off.reason, Reason::CutOff);
/// assert_eq!(measure(&tree, b"1 \xFF").unwrap_err().reason, Reason::NotUtf8);
/// # Ok::<(), Box<dyn std::error::Error>>(())
/// ```
#[derive(Clone, Copy, Debug, PartialEq, Eq)]
#[non_exhaustive]
pub struct Refusal {
    /// 1 to 12, as include/kinyandoma.h lists them.
    pub number: u32,
    /// A record's index, a byte of the text, or the length that is needed: the reason tells which.
    pub place: usize,
    /// What the number and the place stand for in the call that was made.
    pub reason: Reason,
}

/// Why a call was refused.
#[derive(Clone, Copy, Debug, PartialEq, Eq, Hash)]
#[non_exhaustive]
pub enum Reason {
    /// 1: the tree is empty, too long, or no whole number of records.
    TreeLength,
    /// 1, append: the output is shorter than what the stream has written already. The call refuses so, too, a record that
    /// is not of 25 bytes, does not begin with 0 or 1, or whose line or column is larger than its count; a
    /// [`Stream`](crate::Stream) never has such a record.
    StreamRecord,
    /// 1, [`render_jobs`](crate::render_jobs): the range of the job is not inside the buffer of trees.
    OutsideBuffer,
    /// 2: the text or value is longer than 65,536 bytes.
    TextTooLong,
    /// 2: the byte at the place begins no character of UTF-8.
    NotUtf8,
    /// 12: the text or value ends in the middle of the character that begins at the place.
    CutOff,
    /// 3: the record at the place does not begin with the mark 53 4E.
    Mark,
    /// 4: the record at the place may not stand there as it is.
    Record,
    /// 4, append: no token has the number.
    Token,
    /// 5: the text part of the record at the place is not inside the text, or cuts a character.
    TextPart,
    /// 6: the record at the place is deeper than 64.
    TooDeep,
    /// 7: the record at the place is missing, or is left over.
    RecordCount,
    /// 8: the output is too short; the place is the length that is needed.
    NoRoom,
    /// 9, with [`Options::strict`](crate::Options::strict): the CHECK source that the record at the place names ends inside
    /// a block comment or inside a quote.
    OpenSource,
    /// 10, with [`Options::sqlite`](crate::Options::sqlite): the without-rowid text that the record at the place names is not
    /// WITHOUT and ROWID.
    WithoutRowid,
    /// 11, [`profile`](crate::profile): the record at the place is the first that breaks the field profile.
    Profile,
}

/// Which sort of call was made: the numbers 1 and 4 mean something else in an append, and 1 for a job outside its buffer.
#[derive(Clone, Copy)]
pub(crate) enum Asked {
    Tree,
    Append,
    Outside,
}

/// The place of an answer 0, or the refusal.
pub(crate) fn settled(asked: Asked, answer: Answer) -> Result<usize, Refusal> {
    let place = answer.place as usize;
    match answer.number {
        0 => Ok(place),
        number => Err(Refusal {
            number,
            place,
            reason: reason(asked, number, place),
        }),
    }
}

/// The reason of a number: only a text that is too long is refused at 65,536, for a shorter one has no byte there.
fn reason(asked: Asked, number: u32, place: usize) -> Reason {
    match (number, asked) {
        (1, Asked::Tree) => Reason::TreeLength,
        (1, Asked::Append) => Reason::StreamRecord,
        (1, Asked::Outside) => Reason::OutsideBuffer,
        (2, _) if place == MOST_BYTES => Reason::TextTooLong,
        (2, _) => Reason::NotUtf8,
        (3, _) => Reason::Mark,
        (4, Asked::Append) => Reason::Token,
        (4, _) => Reason::Record,
        (5, _) => Reason::TextPart,
        (6, _) => Reason::TooDeep,
        (7, _) => Reason::RecordCount,
        (8, _) => Reason::NoRoom,
        (9, _) => Reason::OpenSource,
        (10, _) => Reason::WithoutRowid,
        (11, _) => Reason::Profile,
        (12, _) => Reason::CutOff,
        (number, _) => {
            panic!("libkinyandoma.a answers {number}: it is not the library of this crate")
        }
    }
}

impl fmt::Display for Refusal {
    fn fmt(&self, f: &mut fmt::Formatter<'_>) -> fmt::Result {
        let (number, place) = (self.number, self.place);
        let (what, todo) = self.reason.told();
        let what = what.replace("{place}", &place.to_string());
        let todo = todo.replace("{place}", &place.to_string());
        write!(f, "refused with {number}, place {place}: {what}; {todo}")
    }
}

impl Reason {
    /// What is wrong, and what to do; `{place}` stands for the place.
    fn told(self) -> (&'static str, &'static str) {
        match self {
            Reason::TreeLength => (
                "the tree is empty, longer than 65536 bytes, or no whole number of 16-byte records",
                "give one whole tree",
            ),
            Reason::StreamRecord => (
                "the output is shorter than what the stream has written, or the stream record is malformed: it is no bit \
                 with count, line and column, or its line or column is larger than its count",
                "lend the same output, at its full length",
            ),
            Reason::OutsideBuffer => (
                "the range of the job is not inside the buffer of trees",
                "mend where it starts and ends",
            ),
            Reason::TextTooLong => ("the text is longer than 65536 bytes", "shorten it"),
            Reason::NotUtf8 => (
                "byte {place} of the text begins no character of UTF-8",
                "give UTF-8",
            ),
            Reason::CutOff => (
                "the text ends in the middle of a character, which begins at byte {place}",
                "give all of it: some of its end is missing",
            ),
            Reason::Mark => (
                "record {place} does not begin with the mark 53 4E",
                "look at what encodes it",
            ),
            Reason::Record => (
                "record {place} may not stand there as it is: its kind, child count, flags, token or number \
                 is not allowed, or a field that it does not use is not zero",
                "look at the slots and flags of the record above it, and at its own",
            ),
            Reason::Token => ("no token has this number", "use a number of token.rs"),
            Reason::TextPart => (
                "the text part of record {place} is not inside the text, or begins or ends inside a character",
                "mend its start and length",
            ),
            Reason::TooDeep => (
                "record {place} is deeper than 64",
                "nest less, or put a RUN of tokens in its place",
            ),
            Reason::RecordCount => (
                "record {place} is missing, or is left over behind the root",
                "mend the child counts",
            ),
            Reason::NoRoom => ("the output is too short", "this needs room for {place} bytes"),
            Reason::OpenSource => (
                "the CHECK source of record {place} ends inside a block comment or a quote",
                "close it: it would swallow the bracket behind it",
            ),
            Reason::WithoutRowid => (
                "the without-rowid text of record {place} is not the two words WITHOUT and ROWID",
                "write these two, or NONE: SQLite reads nothing else there",
            ),
            Reason::Profile => (
                "record {place} breaks the field profile: it is none of the five statements, a Cmd with flags, a RUN in the \
                 place of a node, or deeper than 24",
                "send CREATE TABLE, CREATE INDEX, DROP TABLE, DROP INDEX or ALTER TABLE, of nodes throughout, and nest less",
            ),
        }
    }
}

impl std::error::Error for Refusal {}
