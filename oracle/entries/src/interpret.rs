//! What the entries write for a tree.

use crate::shape::{Class, Shape, Table};
use model::grammar::{LIST, NONE, NUMBER, REPLACE, RUN, TEXT};
use model::options::Edition;
use model::record::{Record, VALUE_PRESENT};
use tokens::token::Token;
use turso_parser::token::TokenType::*;

/// A record and all below it.
pub struct Node {
    pub record: Record,
    pub children: Vec<Node>,
}

/// The whole tree as one node.
pub fn node(tree: &[u8]) -> Result<Node, String> {
    let mut index = 0;
    let root = node_at(tree, &mut index)?;
    match Record::read(tree, index) {
        Some(_) => Err("records remain".to_string()),
        None => Ok(root),
    }
}

fn node_at(tree: &[u8], index: &mut usize) -> Result<Node, String> {
    let record = Record::read(tree, *index).ok_or("a record is missing")?;
    *index += 1;
    let children = (0..record.children).map(|_| node_at(tree, index));
    let children = children.collect::<Result<_, _>>()?;
    Ok(Node { record, children })
}

/// How many children a shape holds. `each` has no fixed number and stands alone.
fn held(shape: &Shape) -> usize {
    match shape {
        Shape::When(_, inner) | Shape::Is(_, inner) => held(inner),
        Shape::Given(inner) | Shape::Filled(inner) => held(inner),
        Shape::Later(first, second) | Shape::Then(first, second) | Shape::Both(first, second) => {
            held(first) + held(second)
        }
        // Both hold the same.
        Shape::Replacing(_, no) => held(no),
        Shape::Slot(_) | Shape::Commas(_) | Shape::Row(_) => 1,
        Shape::Lines(..) | Shape::Tuples(_) => 1,
        Shape::Decimal | Shape::Brackets | Shape::Quoted | Shape::Rowid => 1,
        Shape::Source => 2,
        _ => 0,
    }
}

/// Whether a shape holds any child.
pub fn holds(shape: &Shape) -> bool {
    held(shape) > 0
}

fn admitted(class: &Class, node: &Node) -> bool {
    let all = |class| node.children.iter().all(|child| admitted(class, child));
    let kind = node.record.kind;
    match class {
        Class::One(kinds) => kinds.contains(&kind),
        Class::List(class) => kind == LIST && all(class),
        Class::OneOr(kinds, class) => kinds.contains(&kind) || kind == LIST && all(class),
        Class::Small => kind == NUMBER && (0..256).contains(&node.record.as_number()),
    }
}

fn is_white(c: char) -> bool {
    matches!(c as u32, 0x9..=0xD | 0x20 | 0x85 | 0xA0 | 0x1680 | 0x2000..=0x200A
        | 0x2028 | 0x2029 | 0x202F | 0x205F | 0x3000)
}

/// What section 4 says of single texts.
#[derive(Clone, Copy)]
pub struct Corners {
    /// Where the without-rowid text is split.
    pub white: fn(char) -> bool,
    /// Whether a newline follows this CHECK source.
    pub commented: fn(&str) -> bool,
    /// An operator's text between its quotes.
    pub quoted: fn(&str) -> String,
    /// Whether a comma stands between the two options of a table, from whether each of them writes something.
    pub comma: fn(bool, bool) -> bool,
    /// The second part of a without-rowid text, as it is written.
    pub rowid: fn(&str) -> String,
    /// The text of a number.
    pub decimal: fn(i64) -> String,
}

/// As the crate has them.
const OF_THE_CRATE: Corners = Corners {
    white: is_white,
    commented: |source| source.contains("--"),
    quoted: |text| format!("'{text}'"),
    comma: |_, _| false,
    rowid: str::to_string,
    decimal: |number| number.to_string(),
};

/// As SQLite reads them (request viii).
const FOR_SQLITE: Corners = Corners {
    quoted: |text| format!("'{}'", text.replace('\'', "''")),
    comma: |first, second| first && second,
    ..OF_THE_CRATE
};

/// Those of an edition.
pub const fn corners(edition: Edition) -> Corners {
    match edition {
        Edition::Crate => OF_THE_CRATE,
        Edition::Sqlite => FOR_SQLITE,
    }
}

/// Writes a tree's tokens by the entries.
pub struct Interpreter<'a> {
    pub table: &'a Table,
    pub corners: Corners,
    pub text: &'a str,
    pub out: Vec<Token>,
}

type Done = Result<(), String>;

impl Interpreter<'_> {
    /// What a whole tree writes, a root LIST with commas.
    pub fn root(&mut self, root: &Class, node: &Node) -> Done {
        if !admitted(root, node) {
            return Err(format!("kind {} as root", node.record.kind));
        }
        match node.record.kind {
            LIST => self.commas(&node.children),
            _ => self.node(node),
        }
    }

    /// What a record writes by its entry, which is to take all its children.
    pub fn node(&mut self, node: &Node) -> Done {
        let kind = node.record.kind;
        let table = self.table;
        let shape = table.get(&kind).ok_or(format!("no entry of {kind}"))?;
        let mut next = 0;
        self.write(shape, node, &mut next)?;
        match next == node.children.len() {
            true => Ok(()),
            false => Err(format!("{next} children of kind {kind}")),
        }
    }

    fn put(&mut self, token: Token) {
        self.out.push(token);
    }

    fn word(&mut self, number: u16) {
        self.put(Token {
            number,
            value: None,
        });
    }

    fn line(&mut self, number: u16) {
        let value = Some("\n".to_string());
        self.put(Token { number, value });
    }

    fn part(&self, node: &Node) -> Result<String, String> {
        let start = node.record.start as usize;
        let part = self.text.get(start..start + node.record.length as usize);
        part.map(str::to_string).ok_or("a text part".to_string())
    }

    fn commas(&mut self, nodes: &[Node]) -> Done {
        for (index, node) in nodes.iter().enumerate() {
            if index > 0 {
                self.put(Token::bare(TK_COMMA));
            }
            self.node(node)?;
        }
        Ok(())
    }

    fn write(&mut self, shape: &Shape, of: &Node, next: &mut usize) -> Done {
        match shape {
            Shape::Nothing => {}
            Shape::Token => {
                let valued = of.record.flags & VALUE_PRESENT != 0;
                let value = valued.then(|| self.part(of)).transpose()?;
                let number = of.record.flags & !VALUE_PRESENT;
                self.put(Token { number, value });
            }
            Shape::Ident => self.put(Token::id(&self.part(of)?)),
            Shape::Word(number) => self.word(*number),
            Shape::Said(text) => self.put(Token::id(text)),
            Shape::Line(number) => self.line(*number),
            Shape::Each(class) => {
                while *next < of.children.len() {
                    let child = take(class, of, next)?;
                    self.node(child)?;
                }
            }
            Shape::Later(first, second) => {
                let mut ahead = *next + held(first);
                self.write(second, of, &mut ahead)?;
                self.write(first, of, next)?;
                *next = ahead;
            }
            Shape::Then(first, second) => {
                self.write(first, of, next)?;
                self.write(second, of, next)?;
            }
            Shape::Both(first, second) => {
                let begin = self.out.len();
                self.write(first, of, next)?;
                let between = self.out.len();
                self.write(second, of, next)?;
                if (self.corners.comma)(between > begin, self.out.len() > between) {
                    self.out.insert(between, Token::bare(TK_COMMA));
                }
            }
            _ => self.chosen(shape, of, next)?,
        }
        Ok(())
    }

    /// The shapes that flags or the next child decide about.
    fn chosen(&mut self, shape: &Shape, of: &Node, next: &mut usize) -> Done {
        let (so, inner, passed) = match shape {
            Shape::When(bit, inner) => (of.record.flags >> bit & 1 == 1, inner, held(inner)),
            Shape::Is(flags, inner) => (of.record.flags == *flags, inner, held(inner)),
            // The one child that decides is passed over.
            Shape::Given(inner) => (look(of, *next)?.record.kind != NONE, inner, 1),
            Shape::Filled(inner) => {
                let list = look(of, *next)?;
                if list.record.kind != LIST {
                    return Err("filled: not a LIST".to_string());
                }
                (!list.children.is_empty(), inner, 1)
            }
            Shape::Replacing(yes, no) => {
                let replace = look(of, *next)?.record.kind == REPLACE;
                return self.write(if replace { yes } else { no }, of, next);
            }
            _ => return self.listed(shape, of, next),
        };
        match so {
            true => self.write(inner, of, next)?,
            false => *next += passed,
        }
        Ok(())
    }

    /// The shapes that take the next child, a LIST.
    fn listed(&mut self, shape: &Shape, of: &Node, next: &mut usize) -> Done {
        match shape {
            Shape::Commas(class) => {
                let list = take(&list_of(class), of, next)?;
                self.commas(&list.children)
            }
            Shape::Row(class) => {
                let list = take(&list_of(class), of, next)?;
                list.children.iter().try_for_each(|child| self.node(child))
            }
            Shape::Lines(class, number) => {
                for child in &take(&list_of(class), of, next)?.children {
                    self.node(child)?;
                    self.line(*number);
                }
                Ok(())
            }
            Shape::Tuples(class) => {
                let lists = take(&list_of(&list_of(class)), of, next)?;
                for (index, list) in lists.children.iter().enumerate() {
                    if index > 0 {
                        self.put(Token::bare(TK_COMMA));
                    }
                    self.put(Token::bare(TK_LP));
                    self.commas(&list.children)?;
                    self.put(Token::bare(TK_RP));
                }
                Ok(())
            }
            _ => self.child(shape, of, next),
        }
    }

    /// The shapes that take the next child, or the next two.
    fn child(&mut self, shape: &Shape, of: &Node, next: &mut usize) -> Done {
        let text = Class::One(vec![TEXT]);
        let text_or_none = Class::One(vec![NONE, TEXT]);
        match shape {
            Shape::Slot(class) => {
                let child = take(class, of, next)?;
                self.node(child)?;
            }
            Shape::Decimal => {
                let child = take(&Class::One(vec![NONE, NUMBER]), of, next)?;
                if child.record.kind == NUMBER {
                    let decimal = (self.corners.decimal)(child.record.as_number());
                    self.put(Token::id(&decimal));
                }
            }
            Shape::Brackets => {
                for _ in 0..take(&Class::Small, of, next)?.record.as_number() {
                    self.put(Token::bare(TK_LBRACKET));
                    self.put(Token::bare(TK_RBRACKET));
                }
            }
            Shape::Quoted => {
                let part = self.part(take(&text, of, next)?)?;
                self.put(Token::with(TK_STRING, &(self.corners.quoted)(&part)));
            }
            Shape::Rowid => {
                let child = take(&text_or_none, of, next)?;
                if child.record.kind == TEXT {
                    self.rowid(&self.part(child)?);
                }
            }
            Shape::Source => {
                let expression = take(&Class::One(vec![RUN]), of, next)?;
                let source = take(&text_or_none, of, next)?;
                self.source(expression, source)?;
            }
            _ => return Err(format!("no child in {shape:?}")),
        }
        Ok(())
    }

    fn source(&mut self, expression: &Node, source: &Node) -> Done {
        if source.record.length == 0 {
            return self.node(expression);
        }
        let part = self.part(source)?;
        self.put(Token::id(&part));
        if (self.corners.commented)(&part) {
            self.put(Token::id("\n"));
        }
        Ok(())
    }

    fn rowid(&mut self, part: &str) {
        let words = part
            .split(self.corners.white)
            .filter(|word| !word.is_empty());
        if let [_, second] = words.collect::<Vec<_>>()[..] {
            self.put(Token::bare(TK_WITHOUT));
            self.put(Token::id(&(self.corners.rowid)(second)));
        }
    }
}

fn list_of(class: &Class) -> Class {
    Class::List(Box::new(class.clone()))
}

fn look(of: &Node, next: usize) -> Result<&Node, String> {
    let missing = || format!("child {next} of kind {} is missing", of.record.kind);
    of.children.get(next).ok_or_else(missing)
}

/// The next child, if its place admits it.
fn take<'a>(class: &Class, of: &'a Node, next: &mut usize) -> Result<&'a Node, String> {
    let child = look(of, *next)?;
    if !admitted(class, child) {
        let (above, kind) = (of.record.kind, child.record.kind);
        return Err(format!("kind {kind} as child {next} of kind {above}"));
    }
    *next += 1;
    Ok(child)
}
