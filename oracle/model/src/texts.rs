//! The fixed list of trees, each with the text of its edition or the model's refusal.

mod corners;
mod covering;
mod editions;

use crate::files::hex;
use crate::fixed;
use crate::grammar::TOKEN;
use crate::record::{Record, MOST_BYTES, MOST_RECORDS};
use crate::samples::{self, Judged, Sample};
use tokens::encoding::{CUT_OFF, NOT_UTF8};
use tokens::judge::text_of;
use tokens::token::Token;
use turso_parser::token::TokenType::TK_COMMA;

/// Listed refusals of each number but those of broken texts, and the most bytes of one.
const REFUSED: usize = 12;
const LARGE: usize = 5_000;
/// One more than the last number of a refused tree.
const NUMBERS: usize = 13;
const SEED: u64 = 1;

/// In the order in which they are stored.
pub fn all() -> Vec<Judged> {
    let mut all = corners::samples();
    all.extend(covering::samples(SEED));
    let judged = all.into_iter().map(Sample::judged);
    judged.chain(refused()).chain(editions::judged()).collect()
}

/// `0 LENGTH HEXTEXT`, or `NUMBER PLACE`.
pub fn line(judged: &Judged) -> String {
    match &judged.expected {
        Ok(text) if text.is_empty() => "0 0 -".to_string(),
        Ok(text) => format!("0 {} {}", text.len(), hex(text.as_bytes())),
        Err((number, place)) => format!("{number} {place}"),
    }
}

/// From the list of the check: some of each number, and every broken text.
fn refused() -> Vec<Judged> {
    let mut counts = [0; NUMBERS];
    let mut refused = vec![];
    for case in fixed::plain(SEED) {
        let refusal = case.refusal();
        let count = &mut counts[refusal.0 as usize];
        let small = case.tree.len() + case.text.len() <= LARGE;
        let broken = matches!(refusal.0, NOT_UTF8 | CUT_OFF);
        if refusal.0 > 0 && small && (broken || *count < REFUSED) {
            *count += 1;
            let expected = Err(refusal);
            refused.push(Judged { case, expected });
        }
    }
    refused
}

/// Too large to be stored: trees and texts of 65,536 bytes, and a text that is written many times.
pub fn limits() -> Vec<Judged> {
    const TIMES: usize = 40;
    let longest = "x".repeat(MOST_BYTES);
    let token = Token::id(&longest);
    let once = samples::of(&vec![token.clone()]);
    let mut often = samples::of(&vec![Token::id("x"); TIMES]);
    let part = Record::part(TOKEN, token.flags(), 0, MOST_BYTES as u32);
    (1..=TIMES).for_each(|index| part.write(&mut often.pair.0, index));
    often.pair.1 = longest.into_bytes();
    often.text = text_of(vec![&token; TIMES]);
    let commas = vec![Token::bare(TK_COMMA); MOST_RECORDS - 1];
    let over = vec![Token::bare(TK_COMMA); MOST_RECORDS];
    let samples = [once, often, samples::of(&commas), samples::of(&over)];
    samples.map(Sample::judged).into()
}
