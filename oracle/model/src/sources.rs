//! Random CHECK sources (request vii), and tables with several of them.

use crate::damage::Case;
use crate::editions;
use crate::encode::{Pair, Writer};
use crate::grammar::{CHECK, LIST, NONE, RUN, TEXT};
use crate::record::Record;
use tokens::random::Random;
use tokens::token::Token;

/// What opens, what ends, halves of both, and what does neither.
const PIECES: [&str; 24] = [
    "/*", "*/", "/", "*", "--", "-", "\n", "'", "\"", "`", "/*", "*/", "--", "\n", "'", "\"", "`",
    "a", " ", "\r", "\\", "[", "\u{E9}", "\u{20AC}",
];
/// Fewer pieces than this, as a rule; one in so many has up to so many.
const SHORT: usize = 9;
const RARE: usize = 12;
const LONG: usize = 300;
/// What ends a comment or a quote.
const ENDS: [&str; 5] = ["*/", "'", "\"", "`", "\n"];

/// Most constraints of a table, and most tokens of a RUN in it.
const CONSTRAINTS: usize = 5;
const TOKENS: usize = 3;

/// Of no, of few or of many pieces; one in three has an end behind it.
pub fn any(random: &mut Random) -> String {
    let most = match random.one_in(RARE) {
        true => LONG,
        false => SHORT,
    };
    let pieces = random.below(most);
    let mut source: String = (0..pieces).map(|_| random.pick(&PIECES)).collect();
    if random.one_in(3) {
        source += random.pick(&ENDS);
    }
    source
}

/// The places of CHECK sources: behind each Check and its RUN, as far as its records are there.
pub fn places(tree: &[u8]) -> Vec<usize> {
    let record = |index: usize| Record::read(tree, index);
    let source = |index: usize| {
        let check = record(index)?.kind == CHECK;
        let run = record(index + 1).filter(|run| check && run.kind == RUN)?;
        let place = index + 2 + usize::from(run.children);
        record(place).map(|_| place)
    };
    let records = (0..).take_while(|&index| record(index).is_some());
    records.filter_map(source).collect()
}

/// Gives each CHECK that has a source another one, and some of those that have none.
pub fn exchange(random: &mut Random, case: &mut Case) {
    for place in places(&case.tree) {
        let kind = Record::read(&case.tree, place).map_or(NONE, |record| record.kind);
        if kind == TEXT || kind == NONE && random.one_in(2) {
            put(case, place, &any(random));
        }
    }
}

/// Gives every TEXT, whatever it is for, what looks like a source.
pub fn exchange_all(random: &mut Random, case: &mut Case) {
    for place in 0..case.records() {
        if Record::read(&case.tree, place).is_some_and(|record| record.kind == TEXT) {
            put(case, place, &any(random));
        }
    }
}

/// Lets the record be a TEXT that names this source. What else is in it stays.
pub fn put(case: &mut Case, place: usize, source: &str) {
    let (start, length) = (case.text.len() as u32, source.len() as u32);
    case.text.extend(source.bytes());
    case.edit(place, |record| {
        record.kind = TEXT;
        (record.start, record.length) = (start, length);
    });
}

/// A CREATE TABLE with several CHECKs. All other texts and values in it look like sources, too.
pub fn table(random: &mut Random) -> Pair {
    let mut out = Writer::default();
    let mut random = Drawn(random);
    if random.0.one_in(3) {
        out.kind(10);
    }
    out.kind(38);
    out.tokens(&random.run());
    out.kind(98);
    random.columns(&mut out);
    let constraints = random.0.between(1, CONSTRAINTS);
    out.record(&Record::new(LIST, constraints as u16));
    for _ in 0..constraints {
        random.constraint(&mut out);
    }
    random.rowid_or_none(&mut out);
    random.text_or_none(&mut out);
    out.pair()
}

/// A Check alone.
pub fn check(random: &mut Random) -> Pair {
    let mut out = Writer::default();
    Drawn(random).check(&mut out);
    out.pair()
}

struct Drawn<'a>(&'a mut Random);

impl Drawn<'_> {
    /// Tokens whose values look like sources.
    fn run(&mut self) -> Vec<Token> {
        let count = self.0.between(0, TOKENS);
        (0..count).map(|_| Token::id(&any(self.0))).collect()
    }

    /// A column, or none: its CHECK is a RUN.
    fn columns(&mut self, out: &mut Writer) {
        let columns = self.0.below(2);
        out.record(&Record::new(LIST, columns as u16));
        for _ in 0..columns {
            out.kind(100);
            out.tokens(&self.run());
            out.none();
            out.record(&Record::new(LIST, 1));
            out.tokens(&self.run());
        }
    }

    /// A Check more often than others, with a head or without.
    fn constraint(&mut self, out: &mut Writer) {
        if self.0.one_in(8) {
            return out.tokens(&self.run());
        }
        out.kind(120);
        match self.0.one_in(2) {
            true => out.none(),
            false => out.tokens(&self.run()),
        }
        match self.0.below(6) {
            0 => {
                out.kind(102);
                out.record(&Record::new(LIST, 0));
                out.none();
            }
            1 => out.tokens(&self.run()),
            _ => self.check(out),
        }
    }

    fn check(&mut self, out: &mut Writer) {
        out.kind(CHECK);
        out.tokens(&self.run());
        self.text_or_none(out);
    }

    /// What SQLite reads, or what looks like a source.
    fn rowid_or_none(&mut self, out: &mut Writer) {
        match self.0.one_in(2) {
            true => out.text(&editions::rowid(self.0)),
            false => self.text_or_none(out),
        }
    }

    fn text_or_none(&mut self, out: &mut Writer) {
        match self.0.one_in(6) {
            true => out.none(),
            false => out.text(&any(self.0)),
        }
    }
}
