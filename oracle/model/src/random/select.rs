//! Selects and what they hold.

use super::Maker;
use turso_parser::ast::*;

const COMPOUND: [CompoundOperator; 4] = [
    CompoundOperator::Union,
    CompoundOperator::UnionAll,
    CompoundOperator::Except,
    CompoundOperator::Intersect,
];

const JOINS: [JoinType; 6] = [
    JoinType::INNER,
    JoinType::CROSS,
    JoinType::NATURAL,
    JoinType::LEFT,
    JoinType::RIGHT,
    JoinType::OUTER,
];

impl Maker<'_> {
    pub fn select(&mut self) -> Select {
        Select {
            with: self.with_if_nested(),
            body: self.select_body(),
            order_by: self.some(Self::sorted_column),
            limit: self.maybe(Self::limit),
        }
    }

    /// None, when nothing more may be nested.
    pub fn with_if_nested(&mut self) -> Option<With> {
        match self.nest {
            0 => None,
            _ => self.rarely(Self::with),
        }
    }

    pub fn with(&mut self) -> With {
        let nest = self.nest;
        self.nest = nest.saturating_sub(1);
        let ctes = self.some(Self::table_expr);
        self.nest = nest;
        With {
            recursive: self.bit(),
            ctes,
        }
    }

    pub fn table_expr(&mut self) -> CommonTableExpr {
        CommonTableExpr {
            tbl_name: self.name(),
            columns: self.some(Self::indexed_column),
            materialized: match self.random.below(3) {
                0 => Materialized::Any,
                1 => Materialized::Yes,
                _ => Materialized::No,
            },
            select: self.select(),
        }
    }

    fn limit(&mut self) -> Limit {
        Limit {
            expr: self.boxed(),
            offset: self.maybe(Self::boxed),
        }
    }

    pub fn select_body(&mut self) -> SelectBody {
        let more = self.random.one_in(3);
        SelectBody {
            select: self.one_select(),
            compounds: if more {
                self.some(Self::compound)
            } else {
                vec![]
            },
        }
    }

    pub fn compound(&mut self) -> CompoundSelect {
        CompoundSelect {
            operator: self.random.pick(&COMPOUND),
            select: self.one_select(),
        }
    }

    pub fn one_select(&mut self) -> OneSelect {
        if self.random.one_in(4) {
            return self.values();
        }
        OneSelect::Select {
            distinctness: self.maybe(Self::distinctness),
            columns: self.some(Self::result_column),
            from: self.maybe(Self::from),
            where_clause: self.maybe(Self::boxed),
            group_by: self.maybe(Self::group_by),
            window_clause: self.some(Self::window_def),
        }
    }

    pub fn values(&mut self) -> OneSelect {
        OneSelect::Values(self.some(|maker| maker.some(Self::boxed)))
    }

    fn group_by(&mut self) -> GroupBy {
        GroupBy {
            exprs: self.some(Self::boxed),
            having: self.maybe(Self::boxed),
        }
    }

    fn window_def(&mut self) -> WindowDef {
        WindowDef {
            name: self.name(),
            window: Window {
                base: self.rarely(Self::name),
                partition_by: self.some(Self::boxed),
                order_by: vec![],
                frame_clause: self.rarely(Self::frame),
            },
        }
    }

    fn frame(&mut self) -> FrameClause {
        FrameClause {
            mode: self
                .random
                .pick(&[FrameMode::Groups, FrameMode::Range, FrameMode::Rows]),
            start: FrameBound::UnboundedPreceding,
            end: self.maybe(|_| FrameBound::CurrentRow),
            exclude: self.maybe(|_| FrameExclude::Ties),
        }
    }

    pub fn from(&mut self) -> FromClause {
        let more = self.random.one_in(3);
        FromClause {
            select: Box::new(self.table()),
            joins: if more { self.some(Self::join) } else { vec![] },
        }
    }

    pub fn join(&mut self) -> JoinedSelectTable {
        JoinedSelectTable {
            operator: self.join_operator(),
            table: Box::new(self.table()),
            constraint: self.maybe(Self::join_constraint),
        }
    }

    fn join_operator(&mut self) -> JoinOperator {
        match self.random.below(4) {
            0 => JoinOperator::Comma,
            1 => JoinOperator::TypedJoin(None),
            _ => {
                let both = self.random.pick(&JOINS) | self.random.pick(&JOINS);
                JoinOperator::TypedJoin(Some(both))
            }
        }
    }

    pub fn join_constraint(&mut self) -> JoinConstraint {
        match self.bit() {
            true => JoinConstraint::On(self.boxed()),
            false => JoinConstraint::Using(self.some(Self::name)),
        }
    }

    pub fn table(&mut self) -> SelectTable {
        let among = if self.nest == 0 { 2 } else { 4 };
        match self.random.below(among) {
            0 => SelectTable::Table(
                self.qualified(),
                self.maybe(Self::alias),
                self.maybe(Self::indexed),
            ),
            1 => SelectTable::TableCall(
                self.qualified(),
                self.some(Self::boxed),
                self.maybe(Self::alias),
            ),
            2 => SelectTable::Select(self.nested(Self::select), self.maybe(Self::alias)),
            _ => SelectTable::Sub(self.nested(Self::from), self.maybe(Self::alias)),
        }
    }

    /// A table in brackets so many times, as a select or a from clause each time.
    pub fn deep(&mut self, times: usize) -> FromClause {
        let mut from = only(SelectTable::Table(self.qualified(), None, None));
        for _ in 0..times {
            from = only(match self.bit() {
                true => SelectTable::Sub(from, None),
                false => SelectTable::Select(all_from(from), None),
            });
        }
        from
    }

    fn nested<T>(&mut self, make: fn(&mut Self) -> T) -> T {
        self.nest -= 1;
        let value = make(self);
        self.nest += 1;
        value
    }
}

/// A from clause of one table.
pub fn only(table: SelectTable) -> FromClause {
    FromClause {
        select: Box::new(table),
        joins: vec![],
    }
}

/// SELECT * FROM this.
pub fn all_from(from: FromClause) -> Select {
    let select = OneSelect::Select {
        distinctness: None,
        columns: vec![ResultColumn::Star],
        from: Some(from),
        where_clause: None,
        group_by: None,
        window_clause: vec![],
    };
    plain(select)
}

/// A select with nothing but its body.
pub fn plain(select: OneSelect) -> Select {
    Select {
        with: None,
        body: SelectBody {
            select,
            compounds: vec![],
        },
        order_by: vec![],
        limit: None,
    }
}
