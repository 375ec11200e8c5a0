//! Tokens by number.

use std::sync::OnceLock;
use turso_parser::token::TokenType;
use turso_parser::VARIANTS;

/// Numbers of the spelling table run from 0 to this one.
pub const LAST_NUMBER: u16 = 255;

/// In a token's flags: a value is present.
pub const VALUE_PRESENT: u16 = 1 << 15;

#[derive(Clone, Debug, PartialEq)]
pub struct Token {
    pub number: u16,
    pub value: Option<String>,
}

impl Token {
    pub fn bare(kind: TokenType) -> Token {
        Token {
            number: kind as u16,
            value: None,
        }
    }

    pub fn with(kind: TokenType, value: &str) -> Token {
        Token {
            number: kind as u16,
            value: Some(value.to_string()),
        }
    }

    pub fn id(value: &str) -> Token {
        Token::with(TokenType::TK_ID, value)
    }

    pub fn kind(&self) -> TokenType {
        kind_of(self.number).expect("a known token number")
    }

    /// The number in bits 0-14, bit 15 for a value.
    pub fn flags(&self) -> u16 {
        match self.value {
            Some(_) => self.number | VALUE_PRESENT,
            None => self.number,
        }
    }

    pub fn value_bytes(&self) -> &[u8] {
        self.value.as_deref().unwrap_or("").as_bytes()
    }
}

/// The token type of a number, if there is one.
pub fn kind_of(number: u16) -> Option<TokenType> {
    static TABLE: OnceLock<Vec<Option<TokenType>>> = OnceLock::new();
    let table = TABLE.get_or_init(table_of_kinds);
    table.get(usize::from(number)).copied().flatten()
}

/// All numbers that a token has, rising.
pub fn known_numbers() -> &'static [u16] {
    static NUMBERS: OnceLock<Vec<u16>> = OnceLock::new();
    let known = |number: &u16| kind_of(*number).is_some();
    NUMBERS.get_or_init(|| (0..=LAST_NUMBER).filter(known).collect())
}

fn table_of_kinds() -> Vec<Option<TokenType>> {
    let mut table = vec![None; usize::from(LAST_NUMBER) + 1];
    for &(number, kind) in VARIANTS {
        assert_eq!(kind as u16, number, "the number of {kind}");
        table[usize::from(number)] = Some(kind);
    }
    for (number, kind) in table.iter().enumerate() {
        let expected = matches!(number, 0..=168 | 185..=193 | 255);
        assert_eq!(kind.is_some(), expected, "whether {number} is known");
    }
    table
}
