//! Expressions, which become runs.

use super::Maker;
use std::num::NonZeroU32;
use turso_parser::ast::*;

const OPERATORS: [Operator; 12] = [
    Operator::Add,
    Operator::And,
    Operator::ArrowRight,
    Operator::ArrowRightShift,
    Operator::BitwiseNot,
    Operator::Concat,
    Operator::Equals,
    Operator::IsNot,
    Operator::LessEquals,
    Operator::NotEquals,
    Operator::ArrayContains,
    Operator::ArrayOverlap,
];

const UNARY: [UnaryOperator; 4] = [
    UnaryOperator::BitwiseNot,
    UnaryOperator::Negative,
    UnaryOperator::Not,
    UnaryOperator::Positive,
];

const LIKE: [LikeOperator; 4] = [
    LikeOperator::Glob,
    LikeOperator::Like,
    LikeOperator::Match,
    LikeOperator::Regexp,
];

const NUMERALS: [&str; 5] = ["0", "1", "4.5", "1e9", "9223372036854775808"];
const BLOBS: [&str; 3] = ["X''", "x'00ff'", "X'0A'"];

const RESOLVE: [ResolveType; 5] = [
    ResolveType::Rollback,
    ResolveType::Abort,
    ResolveType::Fail,
    ResolveType::Ignore,
    ResolveType::Replace,
];

impl Maker<'_> {
    pub fn expr(&mut self) -> Expr {
        match self.random.below(8) {
            0..=3 => self.leaf(),
            4..=6 => self.branch(Self::leaf),
            _ => self.branch(|maker| maker.branch(Self::leaf)),
        }
    }

    pub fn boxed(&mut self) -> Box<Expr> {
        Box::new(self.expr())
    }

    pub fn resolve(&mut self) -> ResolveType {
        self.random.pick(&RESOLVE)
    }

    fn leaf(&mut self) -> Expr {
        match self.random.below(12) {
            0..=3 => Expr::Id(self.name()),
            4..=6 => Expr::Literal(self.literal()),
            7 => Expr::Qualified(self.name(), self.name()),
            8 => Expr::DoublyQualified(self.name(), self.name(), self.name()),
            9 => Expr::Variable(self.variable()),
            10 => Expr::Default,
            // Writes no token: an empty run.
            _ => Expr::RowId {
                database: None,
                table: TableInternalId::default(),
            },
        }
    }

    fn literal(&mut self) -> Literal {
        match self.random.below(10) {
            0 | 1 => Literal::Numeric(self.random.pick(&NUMERALS).to_string()),
            2 => Literal::String(format!("'{}'", self.string().replace('\'', "''"))),
            3 => Literal::Blob(self.random.pick(&BLOBS).to_string()),
            4 => Literal::Keyword(self.string()),
            5 => Literal::Null,
            6 => Literal::True,
            7 => Literal::False,
            8 => Literal::CurrentDate,
            _ => Literal::CurrentTimestamp,
        }
    }

    fn variable(&mut self) -> Variable {
        let index = NonZeroU32::new(self.random.between(1, 99) as u32).unwrap();
        match self.bit() {
            true => Variable::indexed(index),
            false => Variable::named(":v", index),
        }
    }

    fn branch(&mut self, below: fn(&mut Self) -> Expr) -> Expr {
        let mut one = || Box::new(below(self));
        let (first, second) = (one(), one());
        match self.random.below(16) {
            0..=3 => Expr::Binary(first, self.random.pick(&OPERATORS), second),
            4 => Expr::Unary(self.random.pick(&UNARY), first),
            5 => Expr::Parenthesized(vec![first, second]),
            6 => Expr::Between {
                lhs: first,
                not: self.bit(),
                start: second,
                end: Box::new(self.leaf()),
            },
            7 => Expr::Like {
                lhs: first,
                not: self.bit(),
                op: self.random.pick(&LIKE),
                rhs: second,
                escape: None,
            },
            8 => Expr::Cast {
                expr: first,
                type_name: self.maybe(Self::type_of_column),
            },
            9 => Expr::Case {
                base: None,
                when_then_pairs: vec![(first, second)],
                else_expr: None,
            },
            10 => Expr::InList {
                lhs: first,
                not: self.bit(),
                rhs: vec![second],
            },
            11 => Expr::Subscript {
                base: first,
                index: second,
            },
            12 => self.subquery(),
            _ => Expr::FunctionCall {
                name: self.name(),
                distinctness: self.rarely(Self::distinctness),
                args: vec![first, second],
                order_by: vec![],
                within_group: vec![],
                filter_over: FunctionTail {
                    filter_clause: None,
                    over_clause: None,
                },
            },
        }
    }

    fn subquery(&mut self) -> Expr {
        if self.nest == 0 {
            return self.leaf();
        }
        self.nest -= 1;
        let select = self.select();
        self.nest += 1;
        match self.bit() {
            true => Expr::Subquery(select),
            false => Expr::Exists(select),
        }
    }

    pub fn distinctness(&mut self) -> Distinctness {
        let both = [Distinctness::Distinct, Distinctness::All];
        self.random.pick(&both)
    }

    pub fn sorted_column(&mut self) -> SortedColumn {
        SortedColumn {
            expr: self.boxed(),
            order: self.maybe(Self::order),
            nulls: self.rarely(|maker| maker.random.pick(&[NullsOrder::First, NullsOrder::Last])),
        }
    }

    pub fn set(&mut self) -> Set {
        Set {
            col_names: self.some(Self::name),
            expr: self.boxed(),
        }
    }

    pub fn result_column(&mut self) -> ResultColumn {
        match self.random.below(4) {
            0 => ResultColumn::Star,
            1 => ResultColumn::TableStar(self.name()),
            _ => ResultColumn::Expr(self.boxed(), self.maybe(Self::alias)),
        }
    }
}
