//! Columns, constraints, types, and what else statements hold.

use super::Maker;
use turso_parser::ast::*;

const ACTIONS: [RefAct; 5] = [
    RefAct::SetNull,
    RefAct::SetDefault,
    RefAct::Cascade,
    RefAct::Restrict,
    RefAct::NoAction,
];

impl Maker<'_> {
    pub fn alter_body(&mut self) -> AlterTableBody {
        match self.random.below(5) {
            0 => AlterTableBody::RenameTo(self.name()),
            1 => AlterTableBody::AddColumn(self.column()),
            2 => AlterTableBody::AlterColumn {
                old: self.name(),
                new: self.column(),
            },
            3 => AlterTableBody::RenameColumn {
                old: self.name(),
                new: self.name(),
            },
            _ => AlterTableBody::DropColumn(self.name()),
        }
    }

    pub fn table_body(&mut self) -> CreateTableBody {
        if self.random.one_in(4) {
            return CreateTableBody::AsSelect(self.select());
        }
        CreateTableBody::ColumnsAndConstraints {
            columns: self.some(Self::column),
            constraints: self.some(Self::named_constraint),
            options: TableOptions {
                without_rowid_text: self.maybe(Self::string),
                strict_text: self.maybe(Self::string),
            },
        }
    }

    pub fn column(&mut self) -> ColumnDefinition {
        ColumnDefinition {
            col_name: self.name(),
            col_type: self.maybe(Self::type_of_column),
            constraints: self.some(Self::column_constraint),
        }
    }

    fn column_constraint(&mut self) -> NamedColumnConstraint {
        NamedColumnConstraint {
            name: self.rarely(Self::name),
            constraint: match self.random.below(8) {
                0 => ColumnConstraint::PrimaryKey {
                    order: self.maybe(Self::order),
                    conflict_clause: self.maybe(Self::resolve),
                    auto_increment: self.bit(),
                },
                1 => ColumnConstraint::NotNull {
                    nullable: self.bit(),
                    conflict_clause: self.maybe(Self::resolve),
                },
                2 => ColumnConstraint::Unique(self.maybe(Self::resolve)),
                3 => ColumnConstraint::Check {
                    expr: self.boxed(),
                    source: self.maybe(Self::string),
                },
                4 => ColumnConstraint::Default(self.boxed()),
                5 => ColumnConstraint::Collate {
                    collation_name: self.name(),
                },
                6 => ColumnConstraint::Generated {
                    generated_always: self.bit(),
                    expr: self.boxed(),
                    typ: self.maybe(|_| GeneratedColumnType::Stored),
                },
                _ => ColumnConstraint::ForeignKey {
                    clause: self.references(),
                    defer_clause: self.maybe(Self::defer),
                },
            },
        }
    }

    pub fn named_constraint(&mut self) -> NamedTableConstraint {
        NamedTableConstraint {
            name: self.maybe(Self::name),
            constraint: self.table_constraint(),
        }
    }

    pub fn table_constraint(&mut self) -> TableConstraint {
        match self.random.below(4) {
            0 => TableConstraint::PrimaryKey {
                columns: self.some(Self::sorted_column),
                auto_increment: self.bit(),
                conflict_clause: self.maybe(Self::resolve),
            },
            1 => TableConstraint::Unique {
                columns: self.some(Self::sorted_column),
                conflict_clause: self.maybe(Self::resolve),
            },
            2 => TableConstraint::Check {
                expr: self.boxed(),
                source: self.maybe(Self::string),
            },
            _ => TableConstraint::ForeignKey {
                columns: self.some(Self::indexed_column),
                clause: self.references(),
                defer_clause: self.maybe(Self::defer),
            },
        }
    }

    pub fn references(&mut self) -> ForeignKeyClause {
        ForeignKeyClause {
            tbl_name: self.name(),
            columns: self.some(Self::indexed_column),
            args: self.some(Self::reference_arg),
        }
    }

    fn reference_arg(&mut self) -> RefArg {
        let action = self.random.pick(&ACTIONS);
        match self.random.below(4) {
            0 => RefArg::OnDelete(action),
            1 => RefArg::OnInsert(action),
            2 => RefArg::OnUpdate(action),
            _ => RefArg::Match(self.name()),
        }
    }

    fn defer(&mut self) -> DeferSubclause {
        DeferSubclause {
            deferrable: self.bit(),
            init_deferred: self.maybe(|maker| match maker.bit() {
                true => InitDeferredPred::InitiallyDeferred,
                false => InitDeferredPred::InitiallyImmediate,
            }),
        }
    }

    pub fn type_of_column(&mut self) -> Type {
        Type {
            name: self.string(),
            size: self.maybe(Self::type_size),
            array_dimensions: match self.random.below(8) {
                0 => 255,
                1 => 1,
                2 => self.random.below(256) as u32,
                _ => 0,
            },
        }
    }

    fn type_size(&mut self) -> TypeSize {
        match self.bit() {
            true => TypeSize::MaxSize(self.boxed()),
            false => TypeSize::TypeSize(self.boxed(), self.boxed()),
        }
    }

    pub fn type_body(&mut self) -> CreateTypeBody {
        match self.random.below(4) {
            0 => CreateTypeBody::Struct(self.some(Self::field)),
            1 => CreateTypeBody::Union(self.some(Self::field)),
            _ => CreateTypeBody::CustomType {
                params: self.some(Self::param),
                base: self.string(),
                encode: self.maybe(Self::boxed),
                decode: self.maybe(Self::boxed),
                operators: self.some(Self::operator_clause),
                default: self.maybe(Self::boxed),
            },
        }
    }

    pub fn field(&mut self) -> TypeField {
        TypeField {
            name: self.name(),
            field_type: self.type_of_column(),
        }
    }

    pub fn param(&mut self) -> TypeParam {
        TypeParam {
            name: self.string(),
            ty: self.maybe(Self::string),
        }
    }

    pub fn operator_clause(&mut self) -> TypeOperator {
        TypeOperator {
            op: self.string(),
            func_name: self.maybe(Self::string),
        }
    }

    pub fn domain_constraint(&mut self) -> DomainConstraint {
        DomainConstraint {
            name: self.maybe(Self::string),
            check: self.boxed(),
        }
    }

    pub fn name_and_value(&mut self) -> (Name, Box<Expr>) {
        (self.name(), self.boxed())
    }

    pub fn upsert_do(&mut self) -> UpsertDo {
        match self.bit() {
            true => UpsertDo::Set {
                sets: self.some(Self::set),
                where_clause: self.maybe(Self::boxed),
            },
            false => UpsertDo::Nothing,
        }
    }

    pub fn upsert(&mut self) -> Upsert {
        Upsert {
            index: self.maybe(|maker| UpsertIndex {
                targets: maker.some(Self::sorted_column),
                where_clause: maker.maybe(Self::boxed),
            }),
            do_clause: self.upsert_do(),
            next: None,
        }
    }
}
