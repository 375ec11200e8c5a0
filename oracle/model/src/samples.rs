//! Random values, each with its tree and with what the crate writes for it.

use crate::check::check_with;
use crate::damage::Case;
use crate::editions;
use crate::encode::{encode_by, encode_list_by, Encode, Pair, Writer};
use crate::grammar::{CHECK, RUN, TOKEN};
use crate::options::{Edition, SQLITE};
use crate::random::{cmd, Maker, ELEMENTS};
use crate::record::{Record, SIZE, VALUE_PRESENT};
use tokens::judge::text_of;
use tokens::random::Random;
use tokens::token::Token;
use tokens::values::random_token;
use turso_parser::token::TokenType::TK_COMMA;

/// A tree, and the tokens and the text, in an edition, of the value that it was made from. RUNs that the host collected are of
/// this edition, too.
pub struct Sample {
    pub edition: Edition,
    pub pair: Pair,
    pub tokens: Vec<Token>,
    pub text: String,
}

/// A case, and the text of its edition or the model's refusal.
#[derive(Clone)]
pub struct Judged {
    pub case: Case,
    pub expected: Result<String, (u32, u32)>,
}

impl Judged {
    /// The same tree and text, which are admitted, in a call with these options, which ask for the same edition.
    pub fn asked(&self, options: u32) -> Judged {
        assert_eq!(Edition::of(self.case.options), Edition::of(options));
        let case = self.case.clone().with(options);
        let expected = match case.refusal() {
            (0, _) => self.expected.clone(),
            refusal => Err(refusal),
        };
        Judged { case, expected }
    }
}

/// Most elements of a root LIST, and most tokens in a RUN's place.
const FEW: usize = 3;
/// Most tokens of a RUN that is made of any tokens.
const TOKENS: usize = 12;
/// Most bytes of a token's value.
const LONGEST: usize = 60;
/// One sample in so many has what the editions differ in.
const EDITIONS: usize = 8;
/// Most brackets around a table; more than a tree may have.
const BRACKETS: usize = 31;

/// A Cmd, a statement, a clause, a RUN or a LIST, with RUNs in the place of records or without.
pub fn sample(random: &mut Random) -> Sample {
    sample_in(Edition::Crate, random)
}

/// The same in an edition.
pub fn sample_in(edition: Edition, random: &mut Random) -> Sample {
    let runs = random.one_in(2).then(|| random.word());
    let writer = writer(runs).for_edition(edition);
    let drawn = match random.below(8) {
        0 => list_by(writer, &values(random)),
        _ => sample_by(writer, &*value(random)),
    };
    match random.one_in(3) {
        true => exchanged(random, drawn),
        false => drawn,
    }
}

/// One of either edition, and more often than others what the editions differ in; none that SQLite's edition refuses.
pub fn sample_in_any(random: &mut Random) -> Sample {
    loop {
        let edition = random.pick(&[Edition::Crate, Edition::Sqlite]);
        let sample = match random.one_in(EDITIONS) {
            true => {
                let value = editions::value(random);
                drawn_in(edition, random, &*value)
            }
            false => sample_in(edition, random),
        };
        let (tree, text) = &sample.pair;
        if edition == Edition::Crate || check_with(SQLITE, tree, text).0 != 10 {
            return sample;
        }
    }
}

/// The sample of a value.
pub fn of(value: &dyn Encode) -> Sample {
    of_in(Edition::Crate, value)
}

/// The sample of a value in an edition.
pub fn of_in(edition: Edition, value: &dyn Encode) -> Sample {
    sample_by(Writer::default().for_edition(edition), value)
}

/// The same, with RUNs in the place of records or without.
pub fn drawn_in(edition: Edition, random: &mut Random, value: &dyn Encode) -> Sample {
    let runs = random.one_in(2).then(|| random.word());
    sample_by(writer(runs).for_edition(edition), value)
}

/// The sample of a value, with RUNs in the place of some records.
pub fn with_runs(value: &dyn Encode, seed: u64) -> Sample {
    sample_by(Writer::with_runs(seed), value)
}

/// The sample of a root LIST.
pub fn of_list(values: &[Box<dyn Encode>]) -> Sample {
    list_by(Writer::default(), values)
}

impl Sample {
    /// The crate's text, if the tree is admitted.
    pub fn judged(self) -> Judged {
        self.judged_with(0)
    }

    /// The same for a call with options, which ask for the sample's edition.
    pub fn judged_with(self, options: u32) -> Judged {
        assert_eq!(self.edition, Edition::of(options));
        let case = Case::from(self.pair).with(options);
        let expected = match case.refusal() {
            (0, _) => Ok(self.text),
            refusal => Err(refusal),
        };
        Judged { case, expected }
    }
}

fn writer(runs: Option<u64>) -> Writer {
    runs.map_or_else(Writer::default, Writer::with_runs)
}

fn sample_by(out: Writer, value: &dyn Encode) -> Sample {
    let edition = out.edition();
    Sample {
        edition,
        pair: encode_by(out, value),
        tokens: value.tokens_in(edition),
        text: value.text_in(edition),
    }
}

/// A root LIST is its elements with commas between them.
fn list_by(out: Writer, values: &[Box<dyn Encode>]) -> Sample {
    let edition = out.edition();
    let mut tokens = vec![];
    for (index, value) in values.iter().enumerate() {
        if index > 0 {
            tokens.push(Token::bare(TK_COMMA));
        }
        tokens.extend(value.tokens_in(edition));
    }
    Sample {
        edition,
        pair: encode_list_by(out, values),
        text: text_of(&tokens),
        tokens,
    }
}

fn value(random: &mut Random) -> Box<dyn Encode> {
    match random.below(16) {
        0..=3 => Box::new(cmd(random)),
        4 => Box::new(any_tokens(random, TOKENS)),
        5 if random.one_in(4) => {
            let times = random.between(1, BRACKETS);
            Box::new(Maker::new(random).deep(times))
        }
        5..=9 => Box::new(Maker::new(random).stmt()),
        _ => element(random),
    }
}

fn values(random: &mut Random) -> Vec<Box<dyn Encode>> {
    let count = random.between(0, FEW);
    (0..count).map(|_| element(random)).collect()
}

fn element(random: &mut Random) -> Box<dyn Encode> {
    let draw = random.pick(&ELEMENTS);
    draw(&mut Maker::new(random))
}

fn any_tokens(random: &mut Random, most: usize) -> Vec<Token> {
    let count = random.between(0, most);
    (0..count).map(|_| random_token(random, LONGEST)).collect()
}

/// One RUN exchanged for any tokens, in the tree and in what the crate writes, if its tokens stand there once.
fn exchanged(random: &mut Random, sample: Sample) -> Sample {
    let (tree, text) = &sample.pair;
    let runs = filled_runs(tree);
    if runs.is_empty() {
        return sample;
    }
    let run = random.pick(&runs);
    let old = tokens_of_run(tree, text, run);
    let places = sample.tokens.windows(old.len()).enumerate();
    let mut places = places.filter(|(_, tokens)| *tokens == old);
    let (Some((at, _)), None) = (places.next(), places.next()) else {
        return sample;
    };
    let new = any_tokens(random, FEW);
    let pair = with_run(&sample.pair, run, old.len(), &new);
    let mut tokens = sample.tokens;
    tokens.splice(at..at + old.len(), new);
    let text = text_of(&tokens);
    Sample {
        pair,
        tokens,
        text,
        ..sample
    }
}

/// The RUNs that hold something; not a CHECK's, for which its source may be written.
fn filled_runs(tree: &[u8]) -> Vec<usize> {
    let record = |at: usize| Record::read(tree, at).expect("a whole tree");
    let filled = |&at: &usize| {
        let of_check = at > 0 && record(at - 1).kind == CHECK;
        record(at).kind == RUN && record(at).children > 0 && !of_check
    };
    (0..tree.len() / SIZE).filter(filled).collect()
}

fn tokens_of_run(tree: &[u8], text: &[u8], run: usize) -> Vec<Token> {
    let record = |at: usize| Record::read(tree, at).expect("a whole tree");
    let token = |at: usize| {
        let record = record(at);
        let part = &text[record.start as usize..][..record.length as usize];
        let value = std::str::from_utf8(part).expect("a text part").to_string();
        let valued = record.flags & VALUE_PRESENT != 0;
        Token {
            number: record.flags & !VALUE_PRESENT,
            value: valued.then_some(value),
        }
    };
    let count = usize::from(record(run).children);
    (run + 1..=run + count).map(token).collect()
}

/// Other tokens in a RUN of so many.
fn with_run((tree, text): &Pair, run: usize, count: usize, tokens: &[Token]) -> Pair {
    let (mut tree, mut text) = (tree.clone(), text.clone());
    let mut records = Record::new(RUN, tokens.len() as u16).bytes().to_vec();
    for token in tokens {
        let start = token.value.as_ref().map_or(0, |_| text.len() as u32);
        let value = token.value_bytes();
        records.extend(Record::part(TOKEN, token.flags(), start, value.len() as u32).bytes());
        text.extend(value);
    }
    tree.splice(run * SIZE..(run + 1 + count) * SIZE, records);
    (tree, text)
}
