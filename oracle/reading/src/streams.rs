//! Random readable streams: written as text, cut back by the rule, and cut by the crate's lexer.

use crate::carriers::{read_off, Carrier, CARRIERS};
use crate::grow::{tokens_of, Grower, Item};
use crate::lexeme::{Kind, Lexeme, Spelled, KINDS, MARKS};
use crate::partings::Partings;
use crate::rule::{Cut, Rule, DOCUMENT};
use crate::shown::{shown, told};
use std::collections::BTreeSet;
use std::fmt;
use tokens::random::Random;
use tokens::token::Token;

/// Writes tokens as text, or tells why not.
pub type Writer<'a> = &'a dyn Fn(&[Token]) -> Result<Vec<u8>, String>;

/// What was compared without a difference.
#[derive(Default)]
pub struct Counts {
    streams: u64,
    empty: u64,
    longest_stream: usize,
    bytes: u64,
    longest_value: usize,
    carried: [[u64; KINDS.len()]; CARRIERS.len()],
    /// Token numbers by carrier.
    numbers: BTreeSet<(Carrier, u16)>,
    /// Pairs of neighbours by their sorts.
    neighbours: BTreeSet<(usize, usize)>,
    partings: Partings,
}

/// So many streams, each of which must cut back to its kinds and spellings.
pub fn compare(count: u64, seed: u64, write: Writer) -> Result<Counts, String> {
    let grower = Grower::new();
    let mut random = Random::new(seed);
    let mut counts = Counts::default();
    for _ in 0..count {
        let items = grower.stream(&mut random);
        let tokens = tokens_of(&items);
        hold_generator(&items, &tokens)?;
        let text = write(&tokens)?;
        counts.hold(&items, &tokens, &text)?;
    }
    Ok(counts)
}

/// The test of readable streams must say what the generator meant.
fn hold_generator(items: &[Item], tokens: &[Token]) -> Result<(), String> {
    let meant = items
        .iter()
        .map(|item| (item.carrier, item.spelled.clone()));
    if read_off(tokens) == Some(meant.collect()) {
        return Ok(());
    }
    Err(format!(
        "the test of readable streams says otherwise of {items:?}"
    ))
}

/// A cut must be the spellings with their kinds, to the end.
fn hold_cut(items: &[Item], text: &[u8], cut: &Cut) -> Result<(), String> {
    if cuts_back(items, text, cut) {
        return Ok(());
    }
    let told = told(text, cut);
    let text = shown(&String::from_utf8_lossy(text));
    Err(format!(
        "difference\nstream {items:?}\ntext {text}\ncut {told}"
    ))
}

/// Whether a rule cuts the text of these items back to them.
pub fn is_cut_back(rule: &Rule, items: &[Item], text: &[u8]) -> bool {
    cuts_back(items, text, &rule.cut(text))
}

/// Whether a cut is these items, one lexeme each, and did not fail.
fn cuts_back(items: &[Item], text: &[u8], cut: &Cut) -> bool {
    let spelled = |(item, lexeme): (&Item, &Lexeme)| is_at(&item.spelled, text, lexeme);
    let mut pairs = items.iter().zip(&cut.lexemes);
    cut.stop.is_none() && items.len() == cut.lexemes.len() && pairs.all(spelled)
}

/// Whether a lexeme of the text has this kind and these bytes.
fn is_at(spelled: &Spelled, text: &[u8], lexeme: &Lexeme) -> bool {
    spelled.kind == lexeme.kind && spelled.text.as_bytes() == &text[lexeme.start..lexeme.end]
}

impl Counts {
    /// Holds the cut of a stream's text to its items, counts it, and has the crate's lexer cut it too.
    pub fn hold(&mut self, items: &[Item], tokens: &[Token], text: &[u8]) -> Result<(), String> {
        let cut = DOCUMENT.cut(text);
        hold_cut(items, text, &cut)?;
        self.add(items, text);
        self.partings.add(tokens, text, &cut.lexemes);
        Ok(())
    }

    /// Counts a stream that was cut back.
    fn add(&mut self, items: &[Item], text: &[u8]) {
        self.streams += 1;
        self.empty += u64::from(items.is_empty());
        self.longest_stream = self.longest_stream.max(items.len());
        self.bytes += text.len() as u64;
        for item in items {
            self.carried[item.carrier as usize][item.spelled.kind.index()] += 1;
            self.longest_value = self.longest_value.max(item.token.value_bytes().len());
            self.numbers.insert((item.carrier, item.token.number));
        }
        let pair = |pair: &[Item]| (sort(&pair[0].spelled), sort(&pair[1].spelled));
        self.neighbours.extend(items.windows(2).map(pair));
    }

    /// How many token numbers carried in this way.
    fn numbers_of(&self, carrier: Carrier) -> usize {
        let same = |entry: &&(Carrier, u16)| entry.0 == carrier;
        self.numbers.iter().filter(same).count()
    }
}

/// The sorts that neighbours are told apart by: each mark, and each other kind.
const SORTS: usize = KINDS.len() - 1 + MARKS.len();
/// A dot before a number, and after it.
const NO_NEIGHBOURS: usize = 2;

/// The kind, or for a mark which one it is.
fn sort(spelled: &Spelled) -> usize {
    let which = MARKS.iter().position(|mark| *mark == spelled.text);
    spelled.kind.index() + which.unwrap_or(0)
}

impl fmt::Display for Counts {
    fn fmt(&self, f: &mut fmt::Formatter<'_>) -> fmt::Result {
        let tokens: u64 = self.carried.iter().flatten().sum();
        let (streams, empty) = (self.streams, self.empty);
        writeln!(f, "streams: {streams}, {empty} of them empty")?;
        writeln!(
            f,
            "tokens: {tokens}, at most {} a stream",
            self.longest_stream
        )?;
        writeln!(
            f,
            "bytes: {}, in a value at most {}",
            self.bytes, self.longest_value
        )?;
        let pairs = SORTS * SORTS - NO_NEIGHBOURS;
        writeln!(
            f,
            "pairs of neighbours: {} of {pairs}",
            self.neighbours.len()
        )?;
        self.write_carriers(f)?;
        write!(f, "{}", self.partings)
    }
}

impl Counts {
    /// How often each kind of lexeme was carried, and by how many token numbers.
    fn write_carriers(&self, f: &mut fmt::Formatter<'_>) -> fmt::Result {
        let kinds: Vec<String> = KINDS.iter().map(Kind::to_string).collect();
        writeln!(f, "| Carrier | Token numbers | {} |", kinds.join(" | "))?;
        writeln!(f, "|---|---|{}", "---|".repeat(KINDS.len()))?;
        for carrier in CARRIERS {
            let carried = self.carried[carrier as usize].map(|count| count.to_string());
            let numbers = self.numbers_of(carrier);
            writeln!(f, "| {carrier} | {numbers} | {} |", carried.join(" | "))?;
        }
        let all = KINDS.map(|kind| self.all_of(kind).to_string());
        writeln!(f, "| all | | {} |", all.join(" | "))
    }

    /// How often a kind was carried in all.
    fn all_of(&self, kind: Kind) -> u64 {
        let in_carrier = |kinds: &[u64; KINDS.len()]| kinds[kind.index()];
        self.carried.iter().map(in_carrier).sum()
    }
}
