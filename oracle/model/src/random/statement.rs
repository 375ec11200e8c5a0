//! The statements, each variant as often as the others.

use super::Maker;
use turso_parser::ast::*;

const VARIANTS: usize = 33;

const TRANSACTIONS: [TransactionType; 4] = [
    TransactionType::Deferred,
    TransactionType::Immediate,
    TransactionType::Exclusive,
    TransactionType::Concurrent,
];

const INTEGERS: [i64; 7] = [i64::MIN, i64::MAX, -1, 0, 1, 256, 1 << 32];

const TIMES: [TriggerTime; 3] = [
    TriggerTime::Before,
    TriggerTime::After,
    TriggerTime::InsteadOf,
];

impl Maker<'_> {
    pub fn stmt(&mut self) -> Stmt {
        let variant = self.random.below(VARIANTS);
        match variant {
            0..=8 => self.create(variant),
            9..=15 => self.drop(variant - 9),
            16 => Stmt::AlterTable(AlterTable {
                name: self.qualified(),
                body: self.alter_body(),
            }),
            17 => Stmt::Analyze {
                name: self.maybe(Self::qualified),
            },
            18 => Stmt::Attach {
                expr: self.boxed(),
                db_name: self.boxed(),
                key: self.maybe(Self::boxed),
            },
            19 => Stmt::Begin {
                typ: self.maybe(|maker| maker.random.pick(&TRANSACTIONS)),
                name: self.maybe(Self::name),
            },
            20 => Stmt::Commit {
                name: self.maybe(Self::name),
            },
            21 => Stmt::Delete {
                with: self.maybe(Self::with),
                tbl_name: self.qualified(),
                indexed: self.maybe(Self::indexed),
                where_clause: self.maybe(Self::boxed),
                returning: self.some(Self::result_column),
            },
            22 => Stmt::Detach { name: self.boxed() },
            23 => self.insert(),
            24 => Stmt::Pragma {
                name: self.qualified(),
                body: self.maybe(Self::pragma_body),
            },
            25 => Stmt::Reindex {
                name: self.maybe(Self::qualified),
            },
            26 => Stmt::Optimize {
                idx_name: self.maybe(Self::qualified),
            },
            27 => Stmt::Release { name: self.name() },
            28 => Stmt::Rollback {
                tx_name: self.maybe(Self::name),
                savepoint_name: self.maybe(Self::name),
            },
            29 => Stmt::Savepoint { name: self.name() },
            30 => Stmt::Select(self.select()),
            31 => self.update(),
            _ => Stmt::Vacuum {
                name: self.maybe(Self::name),
                into: self.maybe(Self::boxed),
            },
        }
    }

    fn create(&mut self, variant: usize) -> Stmt {
        match variant {
            0 => Stmt::CreateIndex {
                unique: self.bit(),
                if_not_exists: self.bit(),
                idx_name: self.qualified(),
                tbl_name: self.name(),
                using: self.maybe(Self::name),
                columns: self.some(Self::sorted_column),
                with_clause: self.some(Self::name_and_value),
                where_clause: self.maybe(Self::boxed),
            },
            1 => Stmt::CreateTable {
                temporary: self.bit(),
                if_not_exists: self.bit(),
                tbl_name: self.qualified(),
                body: self.table_body(),
            },
            2 => self.create_trigger(),
            3 => Stmt::CreateView {
                temporary: self.bit(),
                if_not_exists: self.bit(),
                view_name: self.qualified(),
                columns: self.some(Self::indexed_column),
                select: self.select(),
            },
            4 => Stmt::CreateMaterializedView {
                if_not_exists: self.bit(),
                view_name: self.qualified(),
                columns: self.some(Self::indexed_column),
                select: self.select(),
            },
            5 => Stmt::CreateVirtualTable(CreateVirtualTable {
                if_not_exists: self.bit(),
                tbl_name: self.qualified(),
                module_name: self.name(),
                args: self.some(Self::string),
            }),
            6 => Stmt::CreateType {
                if_not_exists: self.bit(),
                type_name: self.string(),
                body: self.type_body(),
            },
            7 => Stmt::CreateDomain {
                if_not_exists: self.bit(),
                domain_name: self.string(),
                base_type: self.string(),
                default: self.maybe(Self::boxed),
                not_null: self.bit(),
                constraints: self.some(Self::domain_constraint),
            },
            _ => Stmt::CreateSequence {
                if_not_exists: self.bit(),
                seq_name: self.qualified(),
                start: self.maybe(Self::integer),
                increment: self.maybe(Self::integer),
                min_value: self.maybe(Self::integer),
                max_value: self.maybe(Self::integer),
                cycle: self.bit(),
            },
        }
    }

    fn drop(&mut self, variant: usize) -> Stmt {
        let if_exists = self.bit();
        match variant {
            0 => Stmt::DropIndex {
                if_exists,
                idx_name: self.qualified(),
            },
            1 => Stmt::DropTable {
                if_exists,
                tbl_name: self.qualified(),
            },
            2 => Stmt::DropTrigger {
                if_exists,
                trigger_name: self.qualified(),
            },
            3 => Stmt::DropView {
                if_exists,
                view_name: self.qualified(),
            },
            4 => Stmt::DropType {
                if_exists,
                type_name: self.string(),
            },
            5 => Stmt::DropSequence {
                if_exists,
                seq_name: self.qualified(),
            },
            _ => Stmt::DropDomain {
                if_exists,
                domain_name: self.string(),
            },
        }
    }

    fn create_trigger(&mut self) -> Stmt {
        Stmt::CreateTrigger {
            temporary: self.bit(),
            if_not_exists: self.bit(),
            trigger_name: self.qualified(),
            time: self.maybe(|maker| maker.random.pick(&TIMES)),
            event: self.trigger_event(),
            tbl_name: self.qualified(),
            for_each_row: self.bit(),
            when_clause: self.maybe(Self::boxed),
            commands: self.some(Self::trigger_cmd),
        }
    }

    fn trigger_event(&mut self) -> TriggerEvent {
        match self.random.below(4) {
            0 => TriggerEvent::Delete,
            1 => TriggerEvent::Insert,
            2 => TriggerEvent::Update,
            _ => TriggerEvent::UpdateOf(self.some(Self::name)),
        }
    }

    fn trigger_cmd(&mut self) -> TriggerCmd {
        match self.random.below(4) {
            0 => TriggerCmd::Update {
                or_conflict: self.maybe(Self::resolve),
                tbl_name: self.name(),
                sets: self.some(Self::set),
                from: None,
                where_clause: self.maybe(Self::boxed),
            },
            1 => TriggerCmd::Insert {
                or_conflict: self.maybe(Self::resolve),
                tbl_name: self.name(),
                col_names: self.some(Self::name),
                select: self.select(),
                upsert: None,
                returning: vec![],
            },
            2 => TriggerCmd::Delete {
                tbl_name: self.name(),
                where_clause: self.maybe(Self::boxed),
            },
            _ => TriggerCmd::Select(self.select()),
        }
    }

    fn insert(&mut self) -> Stmt {
        Stmt::Insert {
            with: self.maybe(Self::with),
            or_conflict: self.maybe(Self::resolve),
            tbl_name: self.qualified(),
            columns: self.some(Self::name),
            body: match self.random.below(4) {
                0 => InsertBody::DefaultValues,
                _ => {
                    let upsert = self.rarely(Self::upsert);
                    InsertBody::Select(self.select(), upsert.map(Box::new))
                }
            },
            returning: self.some(Self::result_column),
        }
    }

    fn update(&mut self) -> Stmt {
        Stmt::Update(Update {
            with: self.maybe(Self::with),
            or_conflict: self.maybe(Self::resolve),
            tbl_name: self.qualified(),
            indexed: self.maybe(Self::indexed),
            sets: self.some(Self::set),
            from: self.maybe(Self::from),
            where_clause: self.maybe(Self::boxed),
            returning: self.some(Self::result_column),
        })
    }

    fn pragma_body(&mut self) -> PragmaBody {
        match self.bit() {
            true => PragmaBody::Equals(self.boxed()),
            false => PragmaBody::Call(self.boxed()),
        }
    }

    fn integer(&mut self) -> i64 {
        match self.random.below(4) {
            0 => self.random.pick(&INTEGERS),
            1 => self.random.word() as i64,
            _ => self.random.below(1000) as i64 - 500,
        }
    }
}
