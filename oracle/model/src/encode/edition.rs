//! Values rewritten so that the crate writes the SQLite edition for them (request viii).

use tokens::token::Token;
use turso_parser::ast::*;
use turso_parser::token::TokenType::TK_COMMA;

/// Stands before the text of the second option where a comma is to be written; no other value begins so.
const COMMA_HERE: &str = "\u{10FFFE}a comma here\u{10FFFE}";

/// A value that stays as it is, unless it has an operator or the two options of a table in it.
pub trait ForSqlite: Sized {
    fn for_sqlite(self) -> Self {
        self
    }
}

macro_rules! stay {
    ($($type:ty)*) => {
        $(impl ForSqlite for $type {})*
    };
}

stay! {
    Select SelectBody CompoundSelect OneSelect FromClause JoinedSelectTable SelectTable JoinConstraint
    AlterTableBody ColumnDefinition TableConstraint ForeignKeyClause CommonTableExpr Type UpsertDo With
    NamedTableConstraint Expr TypeField TypeParam DomainConstraint
}

/// The name and value of an index's WITH.
impl ForSqlite for (Name, Box<Expr>) {}

impl ForSqlite for Cmd {
    fn for_sqlite(self) -> Cmd {
        match self {
            Cmd::Stmt(stmt) => Cmd::Stmt(stmt.for_sqlite()),
            Cmd::Explain(stmt) => Cmd::Explain(stmt.for_sqlite()),
            Cmd::ExplainQueryPlan { stmt, format } => Cmd::ExplainQueryPlan {
                stmt: stmt.for_sqlite(),
                format,
            },
        }
    }
}

impl ForSqlite for Stmt {
    fn for_sqlite(mut self) -> Stmt {
        match &mut self {
            Stmt::CreateTable { body, .. } => *body = body.clone().for_sqlite(),
            Stmt::CreateType { body, .. } => *body = body.clone().for_sqlite(),
            _ => {}
        }
        self
    }
}

impl ForSqlite for CreateTableBody {
    fn for_sqlite(mut self) -> CreateTableBody {
        if let CreateTableBody::ColumnsAndConstraints { options, .. } = &mut self {
            let first = options.without_rowid_text.is_some();
            if let Some(second) = options.strict_text.as_mut().filter(|_| first) {
                second.insert_str(0, COMMA_HERE);
            }
        }
        self
    }
}

impl ForSqlite for CreateTypeBody {
    fn for_sqlite(mut self) -> CreateTypeBody {
        if let CreateTypeBody::CustomType { operators, .. } = &mut self {
            let all = std::mem::take(operators);
            *operators = all.into_iter().map(ForSqlite::for_sqlite).collect();
        }
        self
    }
}

impl ForSqlite for TypeOperator {
    fn for_sqlite(self) -> TypeOperator {
        let op = self.op.replace('\'', "''");
        TypeOperator { op, ..self }
    }
}

/// The commas that are to be written, in their places.
pub fn with_commas(tokens: Vec<Token>) -> Vec<Token> {
    let mut all = vec![];
    for mut token in tokens {
        let value = token.value.as_deref().unwrap_or("");
        if let Some(second) = value.strip_prefix(COMMA_HERE) {
            token.value = Some(second.to_string());
            all.push(Token::bare(TK_COMMA));
        }
        all.push(token);
    }
    all
}
