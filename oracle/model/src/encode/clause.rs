//! Parts of ALTER TABLE, CREATE TABLE, CREATE TYPE, CREATE DOMAIN and CREATE INDEX.

use super::{Encode, Writer};
use turso_parser::ast::fmt::{BlankContext, ToTokens, TokenStream};
use turso_parser::ast::*;
use turso_parser::token::TokenType::TK_CONSTRAINT;

impl Encode for AlterTableBody {
    fn encode(&self, out: &mut Writer) {
        match self {
            AlterTableBody::RenameTo(name) => {
                out.kind(93);
                out.run(name);
            }
            AlterTableBody::AddColumn(column) => {
                out.kind(94);
                out.node(column);
            }
            AlterTableBody::AlterColumn { old, new } => {
                out.kind(95);
                out.run(old);
                out.node(new);
            }
            AlterTableBody::RenameColumn { old, new } => {
                out.kind(96);
                out.run(old);
                out.run(new);
            }
            AlterTableBody::DropColumn(name) => {
                out.kind(97);
                out.run(name);
            }
        }
    }
}

impl Encode for CreateTableBody {
    fn encode(&self, out: &mut Writer) {
        match self {
            CreateTableBody::ColumnsAndConstraints {
                columns,
                constraints,
                options,
            } => {
                out.kind(98);
                out.list(columns);
                out.list(constraints);
                out.maybe_text(&options.without_rowid_text);
                out.maybe_text(&options.strict_text);
            }
            CreateTableBody::AsSelect(select) => {
                out.kind(99);
                out.node(select);
            }
        }
    }
}

impl Encode for ColumnDefinition {
    fn encode(&self, out: &mut Writer) {
        out.kind(100);
        out.run(&self.col_name);
        out.maybe(&self.col_type);
        out.runs(&self.constraints);
    }
}

impl Encode for NamedTableConstraint {
    fn encode(&self, out: &mut Writer) {
        out.kind(120);
        match &self.name {
            None => out.none(),
            Some(name) => out.run_of(|run| {
                run.append(TK_CONSTRAINT, None)?;
                name.to_tokens(run, &BlankContext)
            }),
        }
        out.node(&self.constraint);
    }
}

impl Encode for TableConstraint {
    fn encode(&self, out: &mut Writer) {
        match self {
            TableConstraint::PrimaryKey {
                columns,
                auto_increment,
                conflict_clause,
            } => {
                out.with_bits(101, &[*auto_increment]);
                out.runs(columns);
                out.maybe_run(conflict_clause);
            }
            TableConstraint::Unique {
                columns,
                conflict_clause,
            } => {
                out.kind(102);
                out.runs(columns);
                out.maybe_run(conflict_clause);
            }
            TableConstraint::Check { expr, source } => {
                out.kind(103);
                out.run(expr);
                out.maybe_text(source);
            }
            TableConstraint::ForeignKey {
                columns,
                clause,
                defer_clause,
            } => {
                out.kind(104);
                out.runs(columns);
                out.node(clause);
                out.maybe_run(defer_clause);
            }
        }
    }
}

impl Encode for ForeignKeyClause {
    fn encode(&self, out: &mut Writer) {
        out.kind(105);
        out.run(&self.tbl_name);
        out.runs(&self.columns);
        out.runs(&self.args);
    }
}

impl Encode for Type {
    fn encode(&self, out: &mut Writer) {
        out.kind(107);
        out.text(&self.name);
        out.maybe_run(&self.size);
        out.number(i64::from(self.array_dimensions));
    }
}

impl Encode for CreateTypeBody {
    fn encode(&self, out: &mut Writer) {
        match self {
            CreateTypeBody::Struct(fields) => {
                out.kind(111);
                out.list(fields);
            }
            CreateTypeBody::Union(fields) => {
                out.kind(112);
                out.list(fields);
            }
            CreateTypeBody::CustomType {
                params,
                base,
                encode,
                decode,
                operators,
                default,
            } => {
                out.kind(113);
                out.list(params);
                out.text(base);
                out.maybe_run(encode);
                out.maybe_run(decode);
                out.list(operators);
                out.maybe_run(default);
            }
        }
    }
}

impl Encode for TypeField {
    fn encode(&self, out: &mut Writer) {
        out.kind(114);
        out.run(&self.name);
        out.node(&self.field_type);
    }
}

impl Encode for TypeParam {
    fn encode(&self, out: &mut Writer) {
        out.kind(115);
        out.text(&self.name);
        out.maybe_text(&self.ty);
    }
}

impl Encode for TypeOperator {
    fn encode(&self, out: &mut Writer) {
        out.kind(116);
        out.text(&self.op);
        out.maybe_text(&self.func_name);
    }
}

impl Encode for DomainConstraint {
    fn encode(&self, out: &mut Writer) {
        out.kind(117);
        out.maybe_text(&self.name);
        out.run(&self.check);
    }
}

/// Name and value of an index's WITH.
impl Encode for (Name, Box<Expr>) {
    fn encode(&self, out: &mut Writer) {
        out.kind(118);
        out.run(&self.0);
        out.run(&self.1);
    }
}
