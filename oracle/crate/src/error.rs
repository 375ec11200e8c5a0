//! Stand-in: the errors that the lexer names.

/// Where in the input, and how long.
#[derive(Debug, Clone, PartialEq, Eq)]
pub struct Span {
    pub start: usize,
    pub length: usize,
}

impl From<(usize, usize)> for Span {
    fn from((start, length): (usize, usize)) -> Self {
        Span { start, length }
    }
}

macro_rules! errors {
    ($($name:ident)*) => {
        #[derive(Debug, Clone, PartialEq, Eq)]
        pub enum Error {
            $($name { span: Span, token_text: String, offset: usize },)*
        }
    };
}

errors! {
    BadExponentPart
    BadFractionalPart
    BadNumber
    ExpectedEqualsSign
    MalformedHexInteger
    UnrecognizedToken
    UnterminatedLiteral
}
