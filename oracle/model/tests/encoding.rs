//! The encoder's tokens against the crate's own, in their order.

use model::encode::encode_cmd;
use model::grammar::{NUMBER, RUN, TEXT, TOKEN};
use model::outline::{outline, Node};
use model::random::cmd;
use model::record::{Record, VALUE_PRESENT};
use std::convert::Infallible;
use tokens::random::Random;
use turso_parser::ast::fmt::{BlankContext, ToTokens, TokenStream};
use turso_parser::token::TokenType::{self, TK_ID, TK_STRING};

type Token = (u16, Option<String>);

/// Valued words that the crate writes by itself.
const WORDS: [&str; 19] = [
    "\n",
    "FORMAT",
    "JSON",
    "STRUCT",
    "UNION",
    "BASE",
    "ENCODE",
    "DECODE",
    "DEFAULT",
    "OPERATOR",
    "DOMAIN",
    "SEQUENCE",
    "START",
    "WITH",
    "INCREMENT",
    "BY",
    "MINVALUE",
    "MAXVALUE",
    "CYCLE",
];

#[derive(Default)]
struct Collected(Vec<Token>);

impl TokenStream for Collected {
    type Error = Infallible;

    fn append(&mut self, kind: TokenType, value: Option<&str>) -> Result<(), Infallible> {
        self.0.push((kind as u16, value.map(str::to_string)));
        Ok(())
    }
}

/// The tokens that a tree names, in the order in which they are written.
struct Named<'a> {
    tree: &'a [u8],
    text: &'a str,
    nodes: Vec<Node>,
    tokens: Vec<Token>,
}

impl Named<'_> {
    fn part(&self, record: &Record) -> String {
        let start = record.start as usize;
        self.text[start..start + record.length as usize].to_string()
    }

    fn children(&self, index: usize) -> Vec<usize> {
        let of_it = |node: &&Node| node.above.is_some_and(|above| above.index == index);
        let below = &self.nodes[index + 1..self.nodes[index].end];
        below.iter().filter(of_it).map(|node| node.index).collect()
    }

    fn record(&self, index: usize) -> Record {
        Record::read(self.tree, index).unwrap()
    }

    fn visit(&mut self, index: usize) {
        let record = self.record(index);
        let mut children = self.children(index);
        match record.kind {
            TOKEN => {
                let valued = record.flags & VALUE_PRESENT != 0;
                let value = valued.then(|| self.part(&record));
                self.tokens.push((record.flags & !VALUE_PRESENT, value));
            }
            TEXT => self.text(index, self.part(&record)),
            NUMBER if self.kind_above(index) == 62 => {
                let number = record.as_number().to_string();
                self.tokens.push((TK_ID as u16, Some(number)));
            }
            // The source of a CHECK stands for its expression.
            103 if self.record(children[1]).length > 0 => {
                children.remove(0);
            }
            // The default stands before the operators.
            113 => children.swap(4, 5),
            _ => {}
        }
        children.iter().for_each(|&child| self.visit(child));
    }

    fn kind_above(&self, index: usize) -> u16 {
        self.nodes[index].above.map_or(0, |above| above.kind)
    }

    fn text(&mut self, index: usize, value: String) {
        let above = self.nodes[index].above.unwrap();
        let token = match (above.kind, above.child) {
            (98, 2) => {
                let parts: Vec<&str> = value.split_whitespace().collect();
                if parts.len() != 2 {
                    return;
                }
                (TK_ID, parts[1].to_string())
            }
            (103, _) if value.is_empty() => return,
            (116, 0) => (TK_STRING, format!("'{value}'")),
            _ => (TK_ID, value),
        };
        self.tokens.push((token.0 as u16, Some(token.1)));
    }
}

/// All named tokens come, in order, and what comes besides is a word of the crate's own.
fn agree(written: &[Token], named: &[Token]) -> Result<(), String> {
    let mut next = named.iter().peekable();
    for token in written {
        let own = token
            .1
            .as_deref()
            .is_none_or(|value| WORDS.contains(&value));
        if next.peek() == Some(&token) {
            next.next();
        } else if !own {
            return Err(format!("{token:?} is not named"));
        }
    }
    match next.next() {
        Some(token) => Err(format!("{token:?} is not written")),
        None => Ok(()),
    }
}

#[test]
fn every_cmd_names_the_tokens_that_the_crate_writes() {
    let mut random = Random::new(11);
    for _ in 0..20_000 {
        let cmd = cmd(&mut random);
        let (tree, text) = encode_cmd(&cmd);
        // The outline is of admitted trees, and so of small ones.
        if tree.len() > 65_536 {
            continue;
        }
        let mut written = Collected::default();
        let Ok(()) = cmd.to_tokens(&mut written, &BlankContext);
        let mut named = Named {
            tree: &tree,
            text: std::str::from_utf8(&text).unwrap(),
            nodes: outline(&tree),
            tokens: vec![],
        };
        named.visit(0);
        if let Err(error) = agree(&written.0, &named.tokens) {
            panic!("{error}: {cmd:?}");
        }
    }
}

#[test]
fn a_run_holds_tokens_only() {
    let mut random = Random::new(12);
    for _ in 0..2_000 {
        let (tree, _) = encode_cmd(&cmd(&mut random));
        if tree.len() > 65_536 {
            continue;
        }
        for node in outline(&tree) {
            let kind = Record::read(&tree, node.index).unwrap().kind;
            let in_run = node.above.is_some_and(|above| above.kind == RUN);
            assert_eq!(kind == TOKEN, in_run);
        }
    }
}
