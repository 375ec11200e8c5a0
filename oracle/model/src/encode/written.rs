//! What the crate writes for a value that has a kind of its own.

use super::edition::{with_commas, ForSqlite};
use crate::options::Edition;
use std::convert::Infallible;
use tokens::judge::text_of;
use tokens::token::Token;
use turso_parser::ast::fmt::{BlankContext, ToTokens, TokenStream};
use turso_parser::ast::*;
use turso_parser::token::TokenType;

/// The crate's own tokens and text for a value.
pub trait Written {
    /// In the order in which the crate writes them.
    fn tokens(&self) -> Vec<Token>;

    /// Those of the SQLite edition (request viii).
    fn tokens_for_sqlite(&self) -> Vec<Token>;

    /// As the crate shows the value, or its stream over the tokens where it cannot show it alone.
    fn text(&self) -> String {
        text_of(&self.tokens())
    }

    fn tokens_in(&self, edition: Edition) -> Vec<Token> {
        match edition {
            Edition::Crate => self.tokens(),
            Edition::Sqlite => self.tokens_for_sqlite(),
        }
    }

    /// In the SQLite edition: what the crate's stream writes for its tokens.
    fn text_in(&self, edition: Edition) -> String {
        match edition {
            Edition::Crate => self.text(),
            Edition::Sqlite => text_of(&self.tokens_for_sqlite()),
        }
    }
}

#[derive(Default)]
struct Collected(Vec<Token>);

impl TokenStream for Collected {
    type Error = Infallible;

    fn append(&mut self, kind: TokenType, value: Option<&str>) -> Result<(), Infallible> {
        let value = value.map(str::to_string);
        let number = kind as u16;
        self.0.push(Token { number, value });
        Ok(())
    }
}

fn tokens_of(value: &impl ToTokens) -> Vec<Token> {
    let mut stream = Collected::default();
    let Ok(()) = value.to_tokens(&mut stream, &BlankContext);
    stream.0
}

macro_rules! shown {
    ($($type:ty)*) => {
        $(impl Written for $type {
            fn tokens(&self) -> Vec<Token> {
                tokens_of(self)
            }

            fn tokens_for_sqlite(&self) -> Vec<Token> {
                with_commas(tokens_of(&self.clone().for_sqlite()))
            }

            fn text(&self) -> String {
                self.to_string()
            }
        })*
    };
}

shown! {
    Cmd Stmt Select SelectBody CompoundSelect OneSelect FromClause JoinedSelectTable SelectTable
    JoinConstraint AlterTableBody CreateTableBody ColumnDefinition TableConstraint ForeignKeyClause
    CommonTableExpr Type UpsertDo With NamedTableConstraint Expr
}

/// What the crate cannot show alone: the tokens of a statement around it, without the first and last ones.
macro_rules! cut {
    ($($type:ty, $first:literal, $last:literal, $around:expr;)*) => {
        $(impl Written for $type {
            fn tokens(&self) -> Vec<Token> {
                let around: fn($type) -> Stmt = $around;
                let tokens = tokens_of(&around(self.clone()));
                tokens[$first..tokens.len() - $last].to_vec()
            }

            fn tokens_for_sqlite(&self) -> Vec<Token> {
                self.clone().for_sqlite().tokens()
            }
        })*
    };
}

cut! {
    CreateTypeBody, 3, 0, create_type;
    TypeField, 6, 1, |field| create_type(CreateTypeBody::Struct(vec![field]));
    TypeParam, 4, 3, |param| custom_type(vec![param], vec![]);
    TypeOperator, 5, 0, |operator| custom_type(vec![], vec![operator]);
    DomainConstraint, 5, 0, create_domain;
    (Name, Box<Expr>), 9, 1, create_index;
}

fn create_type(body: CreateTypeBody) -> Stmt {
    Stmt::CreateType {
        if_not_exists: false,
        type_name: "t".to_string(),
        body,
    }
}

fn custom_type(params: Vec<TypeParam>, operators: Vec<TypeOperator>) -> Stmt {
    create_type(CreateTypeBody::CustomType {
        params,
        base: "b".to_string(),
        encode: None,
        decode: None,
        operators,
        default: None,
    })
}

fn create_domain(constraint: DomainConstraint) -> Stmt {
    Stmt::CreateDomain {
        if_not_exists: false,
        domain_name: "d".to_string(),
        base_type: "b".to_string(),
        default: None,
        not_null: false,
        constraints: vec![constraint],
    }
}

fn create_index(pair: (Name, Box<Expr>)) -> Stmt {
    let name = |text: &str| Name::exact(text.to_string());
    Stmt::CreateIndex {
        unique: false,
        if_not_exists: false,
        idx_name: QualifiedName {
            db_name: None,
            name: name("i"),
            alias: None,
        },
        tbl_name: name("t"),
        using: None,
        columns: vec![],
        with_clause: vec![pair],
        where_clause: None,
    }
}

/// Any tokens: what the crate's stream writes for them.
impl Written for Vec<Token> {
    fn tokens(&self) -> Vec<Token> {
        self.clone()
    }

    fn tokens_for_sqlite(&self) -> Vec<Token> {
        self.clone()
    }
}
