//! A stream of tokens.

use crate::calls::{self, RECORD};
use crate::refusal::{settled, Asked, Reason, Refusal};
use crate::token::Token;
use std::ops::Range;

/// In a token's flags: a value is present.
pub(crate) const VALUE_PRESENT: u16 = 1 << 15;
/// The last number below that bit. No token has it, so it stands for all numbers past it.
const NO_TOKEN: u16 = VALUE_PRESENT - 1;

/// Where the numbers of a record stand, behind the bit, each little-endian.
const COUNT: Range<usize> = 1..9;
const LINE: Range<usize> = 9..17;
const COLUMN: Range<usize> = 17..25;

/// A stream of tokens: it decides where spaces stand, and knows how much is written and in which line and column it is.
///
/// The output is lent to each call, always the same one; the stream writes behind what it has written before.
///
/// ```
/// use kinyandoma::{Stream, Token};
///
/// let mut stream = Stream::new();
/// let mut out = [0; 16];
/// stream.append(Token::TK_ID, Some("f"), &mut out)?;
/// stream.append(Token::TK_LP, None, &mut out)?;
/// stream.append(Token::TK_ID, Some("x"), &mut out)?;
/// stream.append(Token::TK_RP, None, &mut out)?;
/// assert_eq!(&out[..stream.written()], b"f (x)");
/// # Ok::<(), kinyandoma::Refusal>(())
/// ```
#[derive(Clone, Debug, PartialEq, Eq)]
pub struct Stream {
    record: [u8; RECORD],
}

impl Stream {
    /// A stream that has written nothing.
    pub fn new() -> Stream {
        let mut record = [0; RECORD];
        record[0] = 1;
        Stream { record }
    }

    /// How many bytes it has written.
    pub fn written(&self) -> usize {
        self.number(COUNT)
    }

    /// In which line the next byte is written, from 0: how many newlines (0A) it has written, in values or not.
    ///
    /// ```
    /// use kinyandoma::{Stream, Token};
    ///
    /// let mut stream = Stream::new();
    /// let mut out = Vec::new();
    /// assert_eq!(stream.line(), 0);
    /// stream.append_to_vec(Token::TK_BEGIN, Some("\n"), &mut out)?;
    /// stream.append_to_vec(Token::TK_ID, Some("two\nlines"), &mut out)?;
    /// assert_eq!(out, b"BEGIN\ntwo\nlines");
    /// assert_eq!(stream.line(), 2);
    /// # Ok::<(), kinyandoma::Refusal>(())
    /// ```
    pub fn line(&self) -> usize {
        self.number(LINE)
    }

    /// In which column the next byte is written, from 0: how many bytes it has written since the last newline, or since
    /// the start. A character of several bytes counts as so many.
    ///
    /// ```
    /// use kinyandoma::{Stream, Token};
    ///
    /// let mut stream = Stream::new();
    /// let mut out = Vec::new();
    /// stream.append_to_vec(Token::TK_SELECT, None, &mut out)?;
    /// stream.append_to_vec(Token::TK_ID, Some("é"), &mut out)?;
    /// assert_eq!((stream.line(), stream.column()), (0, "SELECT é".len()));
    /// stream.append_to_vec(Token::TK_SEMI, Some("\n"), &mut out)?;
    /// assert_eq!((stream.line(), stream.column()), (1, 0));
    /// # Ok::<(), kinyandoma::Refusal>(())
    /// ```
    pub fn column(&self) -> usize {
        self.number(COLUMN)
    }

    /// A number of the record. It is at most the length of an output, so it is a `usize`.
    fn number(&self, place: Range<usize>) -> usize {
        let bytes = self.record[place].try_into().expect("eight bytes");
        u64::from_le_bytes(bytes) as usize
    }

    /// Whether the next token is written without a space before it, whatever it is.
    pub fn spaced(&self) -> bool {
        self.record[0] == 1
    }

    /// Appends a token and answers how many bytes it added to `out`.
    ///
    /// A token is one of the constants of [`Token`], or the number that token.rs gives it. A refusal changes nothing; with
    /// [`Reason::NoRoom`] its place is the bytes that this token adds.
    pub fn append(
        &mut self,
        token: impl Into<Token>,
        value: Option<&str>,
        out: &mut [u8],
    ) -> Result<usize, Refusal> {
        let number = token.into().number().min(NO_TOKEN);
        let flags = value.map_or(number, |_| number | VALUE_PRESENT);
        let value = value.unwrap_or_default().as_bytes();
        let answer = calls::append(&mut self.record, out, flags, value);
        settled(Asked::Append, answer)
    }

    /// Appends a token to a vector, which grows as far as it must.
    ///
    /// ```
    /// use kinyandoma::{Stream, Token};
    ///
    /// let mut stream = Stream::new();
    /// let mut out = Vec::new();
    /// for (token, value) in [(Token::TK_ID, Some("a")), (Token::TK_COMMA, None), (Token::TK_ID, Some("b"))] {
    ///     stream.append_to_vec(token, value, &mut out)?;
    /// }
    /// assert_eq!(String::from_utf8(out).unwrap(), "a, b");
    /// # Ok::<(), kinyandoma::Refusal>(())
    /// ```
    pub fn append_to_vec(
        &mut self,
        token: impl Into<Token>,
        value: Option<&str>,
        out: &mut Vec<u8>,
    ) -> Result<usize, Refusal> {
        let token = token.into();
        match self.append(token, value, out) {
            Err(refusal) if refusal.reason == Reason::NoRoom => {
                out.resize(self.written() + refusal.place, 0);
                self.append(token, value, out)
            }
            settled => settled,
        }
    }
}

impl Default for Stream {
    fn default() -> Stream {
        Stream::new()
    }
}
