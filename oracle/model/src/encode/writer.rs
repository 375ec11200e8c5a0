//! Writes records and text parts.

use super::{Encode, Pair};
use crate::grammar::{row, LIST, NONE, NUMBER, RUN, TEXT, TOKEN};
use crate::options::Edition;
use crate::record::{Record, SIZE, VALUE_PRESENT};
use std::convert::Infallible;
use tokens::random::Random;
use tokens::token::Token;
use turso_parser::ast::fmt::{BlankContext, ToTokens, TokenStream};
use turso_parser::token::TokenType;

/// Of the values in slots, one in so many is drawn to be a RUN.
const DRAWN: usize = 3;

#[derive(Default)]
pub struct Writer {
    tree: Vec<u8>,
    text: Vec<u8>,
    /// Draws the values that become RUNs; with none, none does.
    draw: Option<Random>,
    /// Whose tokens such RUNs have.
    edition: Edition,
}

impl Writer {
    /// Some values below the root become RUNs of the crate's tokens for them.
    pub fn with_runs(seed: u64) -> Writer {
        Writer {
            draw: Some(Random::new(seed)),
            ..Writer::default()
        }
    }

    /// The same, with the tokens of this edition in the RUNs.
    pub fn for_edition(self, edition: Edition) -> Writer {
        Writer { edition, ..self }
    }

    pub fn edition(&self) -> Edition {
        self.edition
    }

    /// A value in a slot or a list.
    pub fn node(&mut self, value: &dyn Encode) {
        let drawn = self.draw.as_mut();
        match drawn.is_some_and(|random| random.one_in(DRAWN)) {
            true => self.tokens(&value.tokens_in(self.edition)),
            false => value.encode(self),
        }
    }

    /// A RUN.
    pub fn tokens(&mut self, tokens: &[Token]) {
        let count = u16::try_from(tokens.len()).expect("a run whose count fits");
        self.record(&Record::new(RUN, count));
        for token in tokens {
            self.token(token.number, token.value.as_deref());
        }
    }

    pub fn pair(self) -> Pair {
        (self.tree, self.text)
    }

    pub fn record(&mut self, record: &Record) {
        self.tree.extend(record.bytes());
    }

    /// A kind without flags. Its slots are to follow.
    pub fn kind(&mut self, number: u16) {
        self.flagged(number, 0);
    }

    pub fn flagged(&mut self, number: u16, flags: u16) {
        let slots = row(number).expect("a kind of the table").slots;
        self.record(&Record::flagged(number, flags, slots.len() as u16));
    }

    /// A kind whose flags are bools, the first at bit 0.
    pub fn with_bits(&mut self, number: u16, bits: &[bool]) {
        let flags = bits.iter().rev();
        let flags = flags.fold(0, |flags, &bit| flags << 1 | u16::from(bit));
        self.flagged(number, flags);
    }

    pub fn none(&mut self) {
        self.record(&Record::new(NONE, 0));
    }

    pub fn text(&mut self, value: &str) {
        let record = self.part(TEXT, 0, value);
        self.record(&record);
    }

    pub fn number(&mut self, number: i64) {
        self.record(&Record::number(NUMBER, number));
    }

    /// The tokens that the crate gives for a value.
    pub fn run(&mut self, value: &impl ToTokens) {
        self.run_of(|run| value.to_tokens(run, &BlankContext));
    }

    pub fn run_of(&mut self, append: impl FnOnce(&mut Run) -> Result<(), Infallible>) {
        let at = self.tree.len() / SIZE;
        self.record(&Record::new(RUN, 0));
        let mut run = Run {
            out: self,
            count: 0,
        };
        let Ok(()) = append(&mut run);
        let count = run.count;
        Record::new(RUN, count).write(&mut self.tree, at);
    }

    pub fn token(&mut self, number: u16, value: Option<&str>) {
        let record = match value {
            Some(value) => self.part(TOKEN, number | VALUE_PRESENT, value),
            None => Record::flagged(TOKEN, number, 0),
        };
        self.record(&record);
    }

    pub fn list_of<T>(&mut self, values: &[T], each: impl Fn(&mut Writer, &T)) {
        let count = u16::try_from(values.len()).expect("a list whose count fits");
        self.record(&Record::new(LIST, count));
        values.iter().for_each(|value| each(self, value));
    }

    pub fn list(&mut self, values: &[impl Encode]) {
        self.list_of(values, |out, value| out.node(value));
    }

    pub fn runs(&mut self, values: &[impl ToTokens]) {
        self.list_of(values, |out, value| out.run(value));
    }

    pub fn maybe(&mut self, value: &Option<impl Encode>) {
        match value {
            Some(value) => self.node(value),
            None => self.none(),
        }
    }

    pub fn maybe_run(&mut self, value: &Option<impl ToTokens>) {
        match value {
            Some(value) => self.run(value),
            None => self.none(),
        }
    }

    pub fn maybe_text(&mut self, value: &Option<String>) {
        match value {
            Some(value) => self.text(value),
            None => self.none(),
        }
    }

    pub fn maybe_number(&mut self, value: &Option<i64>) {
        match value {
            Some(value) => self.number(*value),
            None => self.none(),
        }
    }

    fn part(&mut self, kind: u16, flags: u16, value: &str) -> Record {
        let start = self.text.len() as u32;
        self.text.extend(value.as_bytes());
        Record::part(kind, flags, start, value.len() as u32)
    }
}

/// A token stream whose tokens become the children of a RUN.
pub struct Run<'a> {
    out: &'a mut Writer,
    count: u16,
}

impl TokenStream for Run<'_> {
    type Error = Infallible;

    fn append(&mut self, kind: TokenType, value: Option<&str>) -> Result<(), Infallible> {
        self.out.token(kind as u16, value);
        self.count += 1;
        Ok(())
    }
}
