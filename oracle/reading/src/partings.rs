//! Where two cuts of one text part, and sorted by that, the smallest stream of each sort.

use crate::carriers::read_off;
use crate::lexeme::{Kind, Lexeme};
use crate::lexer::{self, Piece, Theirs};
use crate::rule::DOCUMENT;
use crate::shown::shown;
use crate::shrink::smallest;
use std::cmp::Ordering;
use std::collections::{BTreeMap, BTreeSet};
use std::fmt;
use tokens::judge::text_of;
use tokens::token::Token;

/// A place where the cuts part, up to where they meet again; if they do not, our first lexeme of it and all of the
/// crate's.
#[derive(Clone, Debug, PartialEq, Eq, PartialOrd, Ord)]
pub struct Parting {
    ours: Vec<Kind>,
    /// Names of the crate's tokens.
    theirs: Vec<String>,
    refused: Option<String>,
}

/// All partings with the crate's lexer, by sort.
#[derive(Default)]
pub struct Partings {
    sorts: BTreeMap<Parting, Sort>,
    streams: u64,
    refused: u64,
}

/// How often a parting came, and the smallest stream that has it.
#[derive(Default)]
struct Sort {
    places: u64,
    streams: u64,
    smallest: Vec<Token>,
}

/// So many streams of each sort are made smaller.
const MADE_SMALLER: u64 = 20;

impl Partings {
    /// Cuts the text of a readable stream with the crate's lexer too.
    pub fn add(&mut self, tokens: &[Token], text: &[u8], ours: &[Lexeme]) {
        let theirs = lexer::cut(text);
        let found = partings(ours, &theirs);
        self.streams += u64::from(!found.is_empty());
        self.refused += u64::from(theirs.refused.is_some());
        let sorts: BTreeSet<&Parting> = found.iter().collect();
        for parting in sorts {
            let places = found.iter().filter(|&other| other == parting).count();
            let sort = self.sorts.entry(parting.clone()).or_default();
            sort.places += places as u64;
            sort.add(tokens, parting);
        }
    }
}

impl Sort {
    /// Counts a stream, and keeps what is left of it if that is smaller.
    fn add(&mut self, tokens: &[Token], parting: &Parting) {
        self.streams += 1;
        if self.streams > MADE_SMALLER {
            return;
        }
        let small = smallest(tokens, &|stream| parts_so(stream, parting));
        let size = |stream: &[Token]| (text_of(stream).len(), text_of(stream));
        if self.streams == 1 || size(&small) < size(&self.smallest) {
            self.smallest = small;
        }
    }
}

/// Whether a stream is readable and the cuts of its text part in this way.
fn parts_so(stream: &[Token], parting: &Parting) -> bool {
    let text = text_of(stream).into_bytes();
    let ours = || DOCUMENT.cut(&text).lexemes;
    read_off(stream).is_some() && partings(&ours(), &lexer::cut(&text)).contains(parting)
}

/// The partings of two cuts, in order.
pub fn partings(ours: &[Lexeme], theirs: &Theirs) -> Vec<Parting> {
    let mut found = Vec::new();
    let (mut ours, mut pieces) = (ours, theirs.pieces.as_slice());
    while let Some((m, n)) = to_meeting(ours, pieces) {
        if !same(&ours[..m], &pieces[..n]) {
            found.push(parting(&ours[..m], &pieces[..n], None));
        }
        (ours, pieces) = (&ours[m..], &pieces[n..]);
    }
    let refused = theirs.refused.as_ref();
    if refused.is_some() || !ours.is_empty() || !pieces.is_empty() {
        found.push(parting(&ours[..ours.len().min(1)], pieces, refused));
    }
    found
}

/// How many of each stand up to the first common end; none if there is no such end.
fn to_meeting(ours: &[Lexeme], pieces: &[Piece]) -> Option<(usize, usize)> {
    let (mut m, mut n) = (0, 0);
    loop {
        match ours.get(m)?.end.cmp(&pieces.get(n)?.end) {
            Ordering::Less => m += 1,
            Ordering::Greater => n += 1,
            Ordering::Equal => return Some((m + 1, n + 1)),
        }
    }
}

/// Whether both are one and the same bytes.
fn same(ours: &[Lexeme], pieces: &[Piece]) -> bool {
    matches!((ours, pieces), ([a], [b]) if (a.start, a.end) == (b.start, b.end))
}

/// The parting of these lexemes and these tokens.
fn parting(ours: &[Lexeme], pieces: &[Piece], refused: Option<&String>) -> Parting {
    Parting {
        ours: ours.iter().map(|lexeme| lexeme.kind).collect(),
        theirs: pieces.iter().map(|piece| piece.kind.to_string()).collect(),
        refused: refused.cloned(),
    }
}

impl fmt::Display for Partings {
    fn fmt(&self, f: &mut fmt::Formatter<'_>) -> fmt::Result {
        writeln!(
            f,
            "streams that the crate's lexer cuts otherwise: {}",
            self.streams
        )?;
        writeln!(f, "of these refused by it: {}", self.refused)?;
        writeln!(f, "| Smallest text | The crate | Ours | Streams | Places |")?;
        write!(f, "|---|---|---|---|---|")?;
        for (parting, sort) in &self.sorts {
            let text = shown(&text_of(&sort.smallest));
            let Sort {
                streams, places, ..
            } = sort;
            write!(f, "\n| {text} | {parting} | {streams} | {places} |")?;
        }
        Ok(())
    }
}

impl fmt::Display for Parting {
    fn fmt(&self, f: &mut fmt::Formatter<'_>) -> fmt::Result {
        let ours: Vec<String> = self.ours.iter().map(Kind::to_string).collect();
        let refused = self.refused.iter().map(|error| format!("refused, {error}"));
        let theirs: Vec<String> = self.theirs.iter().cloned().chain(refused).collect();
        write!(f, "{} | {}", theirs.join(", "), ours.join(", "))
    }
}
