//! Random readable streams, made from the document's words without the test of `carriers`.

use crate::carriers::{Carrier, EMPTY_BLOB, NEWLINE};
use crate::lexeme::{Kind, Spelled, DOT, MARKS, OPERATORS};
use tokens::random::Random;
use tokens::token::{kind_of, known_numbers, Token};
use tokens::values::{any_kind, letter, wide};
use turso_parser::token::TokenType::{TK_BLOB, TK_SEMI};

/// A token of a readable stream, and the lexeme that it carries.
#[derive(Clone, Debug, PartialEq)]
pub struct Item {
    pub token: Token,
    pub carrier: Carrier,
    pub spelled: Spelled,
}

/// The token numbers that carry, by what they write.
pub struct Grower {
    words: Vec<u16>,
    operators: Vec<u16>,
    marks: Vec<u16>,
    /// No fixed spelling, and not TK_BLOB.
    open: Vec<u16>,
}

const MOST_TOKENS: usize = 60;
/// A lexeme has fewer parts than this, usually; one in so many has more, and one in so many of those many more.
const USUAL_PARTS: usize = 8;
const ONE_IN_MORE: usize = 64;
const MORE_PARTS: usize = 300;
const ONE_IN_MOST: usize = 512;
/// A part is at most four bytes, so a value stays under the 65,536 bytes that append takes.
const MOST_PARTS: usize = 16_000;

/// Kinds of lexeme that stand in a value.
const IN_VALUES: [Kind; 6] = [
    Kind::Word,
    Kind::Number,
    Kind::Quoted,
    Kind::Blob,
    Kind::Variable,
    Kind::Operator,
];

impl Grower {
    /// Sorts the token numbers.
    pub fn new() -> Grower {
        let fixed = |number: &u16| kind_of(*number).and_then(|kind| kind.as_str());
        let among = |list: &[&str]| {
            let is = |number: &u16| fixed(number).is_some_and(|spelling| list.contains(&spelling));
            known_numbers().iter().copied().filter(is).collect()
        };
        let begins_with_letter = |spelling: &str| spelling.starts_with(char::is_alphabetic);
        let known = known_numbers().iter().copied();
        let word = |number: &u16| fixed(number).is_some_and(begins_with_letter);
        let open = |number: &u16| fixed(number).is_none() && *number != TK_BLOB as u16;
        Grower {
            words: known.clone().filter(word).collect(),
            operators: among(&OPERATORS),
            marks: among(&MARKS),
            open: known.filter(open).collect(),
        }
    }

    /// A readable stream of 0 to 60 tokens, short ones more often.
    pub fn stream(&self, random: &mut Random) -> Vec<Item> {
        let most = MOST_TOKENS >> random.below(4);
        let count = random.between(0, most);
        let mut items: Vec<Item> = Vec::with_capacity(count);
        while items.len() < count {
            let next = self.item(random, items.last());
            if !items.last().is_some_and(|last| dot_and_number(last, &next)) {
                items.push(next);
            }
        }
        items
    }

    /// Any token that carries; after a mark often another one, so that marks stand in rows.
    fn item(&self, random: &mut Random, last: Option<&Item>) -> Item {
        let after_mark = last.is_some_and(|item| item.spelled.kind == Kind::Mark);
        if after_mark && random.one_in(2) {
            return fixed(random, &self.marks, Kind::Mark);
        }
        match random.below(12) {
            0 => fixed(random, &self.words, Kind::Word),
            1 => fixed(random, &self.operators, Kind::Operator),
            2 | 3 => fixed(random, &self.marks, Kind::Mark),
            4 => self.with_newline(random),
            5 => blob_item(random),
            _ => self.with_value(random),
        }
    }

    /// A fixed word, or `;`, and a newline.
    fn with_newline(&self, random: &mut Random) -> Item {
        let mut item = match random.below(3) {
            0 => fixed(random, &[TK_SEMI as u16], Kind::Mark),
            _ => fixed(random, &self.words, Kind::Word),
        };
        item.token.value = Some(NEWLINE.to_string());
        item.carrier = Carrier::WithNewline;
        item
    }

    /// A kind with no fixed spelling, and a lexeme.
    fn with_value(&self, random: &mut Random) -> Item {
        let kind = random.pick(&IN_VALUES);
        let text = lexeme(random, kind);
        Item {
            token: Token {
                number: random.pick(&self.open),
                value: Some(text.clone()),
            },
            carrier: Carrier::Value,
            spelled: Spelled { kind, text },
        }
    }
}

impl Default for Grower {
    fn default() -> Self {
        Grower::new()
    }
}

/// The tokens of these items.
pub fn tokens_of(items: &[Item]) -> Vec<Token> {
    items.iter().map(|item| item.token.clone()).collect()
}

/// One of these numbers, with no value.
fn fixed(random: &mut Random, numbers: &[u16], kind: Kind) -> Item {
    let number = random.pick(numbers);
    let spelling = kind_of(number).and_then(|kind| kind.as_str());
    let token = Token {
        number,
        value: None,
    };
    Item {
        token,
        carrier: Carrier::Fixed,
        spelled: Spelled::new(kind, spelling.expect("a fixed spelling")),
    }
}

/// TK_BLOB with a blob, or with none.
fn blob_item(random: &mut Random) -> Item {
    let (value, carrier) = match random.below(3) {
        0 => (None, Carrier::NoBlob),
        _ => (Some(blob(random)), Carrier::Blob),
    };
    let written = value.as_deref().unwrap_or(EMPTY_BLOB);
    let spelled = Spelled::new(Kind::Blob, written);
    let number = TK_BLOB as u16;
    Item {
        token: Token { number, value },
        carrier,
        spelled,
    }
}

/// The one pair of neighbours that is not readable.
fn dot_and_number(last: &Item, next: &Item) -> bool {
    let (last, next) = (&last.spelled, &next.spelled);
    last.text == DOT && next.kind == Kind::Number || last.kind == Kind::Number && next.text == DOT
}

/// A lexeme of a kind that may stand in a value.
fn lexeme(random: &mut Random, kind: Kind) -> String {
    match kind {
        Kind::Word => word(random),
        Kind::Number => number(random),
        Kind::Quoted => quoted(random),
        Kind::Blob => blob(random),
        Kind::Variable => variable(random),
        _ => random.pick(&OPERATORS).to_string(),
    }
}

/// A letter, `_` or wide character, then those, digits or `$`.
fn word(random: &mut Random) -> String {
    let first = match random.below(8) {
        0 => wide(random),
        1 => '_',
        2 => random.pick(&['x', 'X', 'e', 'E']),
        3 => letter(random).to_ascii_uppercase(),
        _ => letter(random),
    };
    let more = parts(random);
    first.to_string() + &filled(random, more, word_part)
}

/// Digits, and perhaps a dot and digits.
fn number(random: &mut Random) -> String {
    let whole = parts(random) + 1;
    let whole = filled(random, whole, digit);
    if random.one_in(2) {
        return whole;
    }
    let fraction = parts(random).min(MORE_PARTS) + 1;
    format!("{whole}.{}", filled(random, fraction, digit))
}

/// One of the three quotes around anything, that quote doubled.
fn quoted(random: &mut Random) -> String {
    let quote = random.pick(&["'", "\"", "`"]);
    let doubled = quote.repeat(2);
    let mut text = quote.to_string();
    for _ in 0..parts(random) {
        let part = quoted_part(random);
        text += if part == quote { &doubled } else { &part };
    }
    text + quote
}

/// What stands inside quotes: any character, the quotes and what elsewhere begins a comment or ends a line.
fn quoted_part(random: &mut Random) -> String {
    let listed = [
        "'", "\"", "`", "'", "\"", "`", "--", "/*", "*/", "\n", " ", "X",
    ];
    match random.below(2) {
        0 => random.pick(&listed).to_string(),
        _ => any_kind(random).to_string(),
    }
}

/// X or x, and pairs of hex digits of either case.
fn blob(random: &mut Random) -> String {
    let pairs = parts(random);
    let hex = filled(random, 2 * pairs, hex_digit);
    format!("{}'{hex}'", random.pick(&['X', 'x']))
}

/// `?` with digits or none, or a name after `:`, `@` or `$`.
fn variable(random: &mut Random) -> String {
    let more = parts(random);
    match random.below(5) {
        0 => "?".to_string(),
        1 => "?".to_string() + &filled(random, more + 1, digit),
        _ => random.pick(&[":", "@", "$"]).to_string() + &filled(random, more + 1, word_part),
    }
}

/// How many parts a lexeme has besides those that it must have.
fn parts(random: &mut Random) -> usize {
    if !random.one_in(ONE_IN_MORE) {
        return random.below(USUAL_PARTS);
    }
    let most = match random.one_in(ONE_IN_MOST) {
        true => MOST_PARTS,
        false => MORE_PARTS,
    };
    random.below(most)
}

/// So many drawn characters.
fn filled(random: &mut Random, count: usize, draw: fn(&mut Random) -> char) -> String {
    (0..count).map(|_| draw(random)).collect()
}

/// A letter of either case, a digit, `_`, `$` or a wide character.
fn word_part(random: &mut Random) -> char {
    match random.below(8) {
        0 => wide(random),
        1 => '_',
        2 => '$',
        3 | 4 => digit(random),
        5 => letter(random).to_ascii_uppercase(),
        _ => letter(random),
    }
}

/// A decimal digit.
fn digit(random: &mut Random) -> char {
    random.pick(&['0', '1', '2', '3', '4', '5', '6', '7', '8', '9'])
}

/// A hex digit of either case.
fn hex_digit(random: &mut Random) -> char {
    match random.below(3) {
        0 => digit(random),
        1 => random.pick(&['a', 'b', 'c', 'd', 'e', 'f']),
        _ => random.pick(&['A', 'B', 'C', 'D', 'E', 'F']),
    }
}
