//! Selects, from clauses, tables, WITH.

use super::{Encode, Writer};
use turso_parser::ast::fmt::{BlankContext, ToTokens, TokenStream};
use turso_parser::ast::*;
use turso_parser::token::TokenType::{TK_BY, TK_ORDER, TK_RECURSIVE, TK_WITH};

impl Encode for Select {
    fn encode(&self, out: &mut Writer) {
        out.kind(80);
        out.maybe(&self.with);
        out.node(&self.body);
        order_by(&self.order_by, out);
        out.maybe_run(&self.limit);
    }
}

/// NONE, or one run with the words ORDER BY in it.
fn order_by(columns: &[SortedColumn], out: &mut Writer) {
    if columns.is_empty() {
        return out.none();
    }
    out.run_of(|run| {
        run.append(TK_ORDER, None)?;
        run.append(TK_BY, None)?;
        run.comma(columns, &BlankContext)
    });
}

impl Encode for SelectBody {
    fn encode(&self, out: &mut Writer) {
        out.kind(81);
        out.node(&self.select);
        out.list(&self.compounds);
    }
}

impl Encode for CompoundSelect {
    fn encode(&self, out: &mut Writer) {
        out.kind(82);
        out.run(&self.operator);
        out.node(&self.select);
    }
}

impl Encode for OneSelect {
    fn encode(&self, out: &mut Writer) {
        match self {
            OneSelect::Select {
                distinctness,
                columns,
                from,
                where_clause,
                group_by,
                window_clause,
            } => {
                out.kind(83);
                out.maybe_run(distinctness);
                out.runs(columns);
                out.maybe(from);
                out.maybe_run(where_clause);
                out.maybe_run(group_by);
                out.runs(window_clause);
            }
            OneSelect::Values(rows) => {
                out.kind(84);
                out.list_of(rows, |out, row| out.runs(row));
            }
        }
    }
}

impl Encode for FromClause {
    fn encode(&self, out: &mut Writer) {
        out.kind(85);
        out.node(&*self.select);
        out.list(&self.joins);
    }
}

impl Encode for JoinedSelectTable {
    fn encode(&self, out: &mut Writer) {
        out.kind(86);
        out.run(&self.operator);
        out.node(&*self.table);
        out.maybe(&self.constraint);
    }
}

impl Encode for SelectTable {
    fn encode(&self, out: &mut Writer) {
        match self {
            SelectTable::Table(name, alias, indexed) => {
                out.kind(87);
                out.run(name);
                out.maybe_run(alias);
                out.maybe_run(indexed);
            }
            SelectTable::TableCall(name, exprs, alias) => {
                out.kind(88);
                out.run(name);
                out.runs(exprs);
                out.maybe_run(alias);
            }
            SelectTable::Select(select, alias) => {
                out.kind(89);
                out.node(select);
                out.maybe_run(alias);
            }
            SelectTable::Sub(from, alias) => {
                out.kind(90);
                out.node(from);
                out.maybe_run(alias);
            }
        }
    }
}

impl Encode for JoinConstraint {
    fn encode(&self, out: &mut Writer) {
        match self {
            JoinConstraint::On(expr) => {
                out.kind(91);
                out.run(expr);
            }
            JoinConstraint::Using(names) => {
                out.kind(92);
                out.runs(names);
            }
        }
    }
}

impl Encode for With {
    fn encode(&self, out: &mut Writer) {
        out.kind(110);
        out.run_of(|run| {
            run.append(TK_WITH, None)?;
            if self.recursive {
                run.append(TK_RECURSIVE, None)?;
            }
            Ok(())
        });
        out.list(&self.ctes);
    }
}

impl Encode for CommonTableExpr {
    fn encode(&self, out: &mut Writer) {
        let materialized = match self.materialized {
            Materialized::Any => 0,
            Materialized::Yes => 1,
            Materialized::No => 2,
        };
        out.flagged(106, materialized);
        out.run(&self.tbl_name);
        out.runs(&self.columns);
        out.node(&self.select);
    }
}

impl Encode for UpsertDo {
    fn encode(&self, out: &mut Writer) {
        match self {
            UpsertDo::Set { sets, where_clause } => {
                out.kind(108);
                out.runs(sets);
                out.maybe_run(where_clause);
            }
            UpsertDo::Nothing => out.kind(109),
        }
    }
}

/// A bare RUN as root: the tokens of an expression.
impl Encode for Expr {
    fn encode(&self, out: &mut Writer) {
        out.run_of(|run| self.to_tokens(run, &BlankContext));
    }
}
