//! The statements, in the order of their numbers.

use super::{Encode, Writer};
use crate::grammar::REPLACE;
use turso_parser::ast::*;

impl Encode for Stmt {
    fn encode(&self, out: &mut Writer) {
        match self {
            Stmt::AlterTable(AlterTable { name, body }) => {
                out.kind(32);
                out.run(name);
                out.node(body);
            }
            Stmt::Analyze { name } => {
                out.kind(33);
                out.maybe_run(name);
            }
            Stmt::Attach { expr, db_name, key } => {
                out.kind(34);
                out.run(expr);
                out.run(db_name);
                out.maybe_run(key);
            }
            Stmt::Begin { typ, name } => {
                out.kind(35);
                out.maybe_run(typ);
                out.maybe_run(name);
            }
            Stmt::Commit { name } => {
                out.kind(36);
                out.maybe_run(name);
            }
            Stmt::CreateIndex { .. }
            | Stmt::CreateTable { .. }
            | Stmt::CreateTrigger { .. }
            | Stmt::CreateView { .. }
            | Stmt::CreateMaterializedView { .. }
            | Stmt::CreateVirtualTable(_)
            | Stmt::CreateType { .. }
            | Stmt::CreateDomain { .. }
            | Stmt::CreateSequence { .. } => create(self, out),
            Stmt::Delete {
                with,
                tbl_name,
                indexed,
                where_clause,
                returning,
            } => {
                out.kind(43);
                out.maybe(with);
                out.run(tbl_name);
                out.maybe_run(indexed);
                out.maybe_run(where_clause);
                out.runs(returning);
            }
            Stmt::Detach { name } => {
                out.kind(44);
                out.run(name);
            }
            Stmt::DropIndex { .. }
            | Stmt::DropTable { .. }
            | Stmt::DropTrigger { .. }
            | Stmt::DropView { .. }
            | Stmt::DropType { .. }
            | Stmt::DropSequence { .. }
            | Stmt::DropDomain { .. } => drop(self, out),
            Stmt::Insert {
                with,
                or_conflict,
                tbl_name,
                columns,
                body,
                returning,
            } => {
                out.kind(49);
                out.maybe(with);
                match or_conflict {
                    Some(ResolveType::Replace) => out.kind(REPLACE),
                    _ => out.maybe_run(or_conflict),
                }
                out.run(tbl_name);
                out.runs(columns);
                out.run(body);
                out.runs(returning);
            }
            Stmt::Pragma { name, body } => {
                out.kind(50);
                out.run(name);
                out.maybe_run(body);
            }
            Stmt::Reindex { name } => {
                out.kind(51);
                out.maybe_run(name);
            }
            Stmt::Optimize { idx_name } => {
                out.kind(52);
                out.maybe_run(idx_name);
            }
            Stmt::Release { name } => {
                out.kind(53);
                out.run(name);
            }
            Stmt::Rollback {
                tx_name,
                savepoint_name,
            } => {
                out.kind(54);
                out.maybe_run(tx_name);
                out.maybe_run(savepoint_name);
            }
            Stmt::Savepoint { name } => {
                out.kind(55);
                out.run(name);
            }
            Stmt::Select(select) => {
                out.kind(56);
                out.node(select);
            }
            Stmt::Update(update) => update_of(update, out),
            Stmt::Vacuum { name, into } => {
                out.kind(58);
                out.maybe_run(name);
                out.maybe_run(into);
            }
        }
    }
}

fn update_of(update: &Update, out: &mut Writer) {
    out.kind(57);
    out.maybe(&update.with);
    out.maybe_run(&update.or_conflict);
    out.run(&update.tbl_name);
    out.maybe_run(&update.indexed);
    out.runs(&update.sets);
    out.maybe(&update.from);
    out.maybe_run(&update.where_clause);
    out.runs(&update.returning);
}

fn create(stmt: &Stmt, out: &mut Writer) {
    match stmt {
        Stmt::CreateIndex {
            unique,
            if_not_exists,
            idx_name,
            tbl_name,
            using,
            columns,
            with_clause,
            where_clause,
        } => {
            out.with_bits(37, &[*unique, *if_not_exists]);
            out.run(idx_name);
            out.run(tbl_name);
            out.maybe_run(using);
            out.runs(columns);
            out.list(with_clause);
            out.maybe_run(where_clause);
        }
        Stmt::CreateTable {
            temporary,
            if_not_exists,
            tbl_name,
            body,
        } => {
            out.with_bits(38, &[*temporary, *if_not_exists]);
            out.run(tbl_name);
            out.node(body);
        }
        Stmt::CreateTrigger {
            temporary,
            if_not_exists,
            trigger_name,
            time,
            event,
            tbl_name,
            for_each_row,
            when_clause,
            commands,
        } => {
            out.with_bits(39, &[*temporary, *if_not_exists, *for_each_row]);
            out.run(trigger_name);
            out.maybe_run(time);
            out.run(event);
            out.run(tbl_name);
            out.maybe_run(when_clause);
            out.runs(commands);
        }
        Stmt::CreateView {
            temporary,
            if_not_exists,
            view_name,
            columns,
            select,
        } => {
            out.with_bits(40, &[*temporary, *if_not_exists]);
            out.run(view_name);
            out.runs(columns);
            out.node(select);
        }
        Stmt::CreateMaterializedView {
            if_not_exists,
            view_name,
            columns,
            select,
        } => {
            out.with_bits(41, &[*if_not_exists]);
            out.run(view_name);
            out.runs(columns);
            out.node(select);
        }
        Stmt::CreateVirtualTable(CreateVirtualTable {
            if_not_exists,
            tbl_name,
            module_name,
            args,
        }) => {
            out.with_bits(42, &[*if_not_exists]);
            out.run(tbl_name);
            out.run(module_name);
            out.runs(args);
        }
        Stmt::CreateType {
            if_not_exists,
            type_name,
            body,
        } => {
            out.with_bits(59, &[*if_not_exists]);
            out.text(type_name);
            out.node(body);
        }
        Stmt::CreateDomain {
            if_not_exists,
            domain_name,
            base_type,
            default,
            not_null,
            constraints,
        } => {
            out.with_bits(60, &[*if_not_exists, *not_null]);
            out.text(domain_name);
            out.text(base_type);
            out.maybe_run(default);
            out.list(constraints);
        }
        Stmt::CreateSequence {
            if_not_exists,
            seq_name,
            start,
            increment,
            min_value,
            max_value,
            cycle,
        } => {
            out.with_bits(62, &[*if_not_exists, *cycle]);
            out.run(seq_name);
            for number in [start, increment, min_value, max_value] {
                out.maybe_number(number);
            }
        }
        _ => unreachable!("not a CREATE"),
    }
}

fn drop(stmt: &Stmt, out: &mut Writer) {
    match stmt {
        Stmt::DropIndex {
            if_exists,
            idx_name: name,
        } => drop_named(45, *if_exists, name, out),
        Stmt::DropTable {
            if_exists,
            tbl_name: name,
        } => drop_named(46, *if_exists, name, out),
        Stmt::DropTrigger {
            if_exists,
            trigger_name: name,
        } => drop_named(47, *if_exists, name, out),
        Stmt::DropView {
            if_exists,
            view_name: name,
        } => drop_named(48, *if_exists, name, out),
        Stmt::DropType {
            if_exists,
            type_name,
        } => {
            out.with_bits(61, &[*if_exists]);
            out.text(type_name);
        }
        Stmt::DropSequence {
            if_exists,
            seq_name: name,
        } => drop_named(63, *if_exists, name, out),
        Stmt::DropDomain {
            if_exists,
            domain_name,
        } => {
            out.with_bits(64, &[*if_exists]);
            out.text(domain_name);
        }
        _ => unreachable!("not a DROP"),
    }
}

fn drop_named(kind: u16, if_exists: bool, name: &QualifiedName, out: &mut Writer) {
    out.with_bits(kind, &[if_exists]);
    out.run(name);
}
