//! The kinds with their flags and slots, and what may stand where.

/// What may stand in a place.
#[derive(Clone, Copy, Debug, PartialEq)]
pub enum Class {
    Run,
    Text,
    Token,
    /// A NUMBER from the first to the last.
    Number(i64, i64),
    /// A kind from the first to the last, or a RUN.
    Kinds(u16, u16),
    /// A LIST, each element of which stands in this slot.
    List(&'static Slot),
    Root,
    /// An element of a LIST that is the root.
    RootElement,
}

#[derive(Clone, Copy, Debug, PartialEq)]
pub struct Slot {
    pub class: Class,
    /// Whether NONE may stand here too.
    pub optional: bool,
}

#[derive(Clone, Copy, Debug, PartialEq)]
pub enum Flags {
    /// One bit a name, from bit 0.
    Bits(&'static [&'static str]),
    /// The numbers from 0 to this one.
    UpTo(u16),
}

#[derive(Clone, Copy, Debug, PartialEq)]
pub struct Kind {
    pub number: u16,
    pub name: &'static str,
    pub flags: Flags,
    pub slots: &'static [Slot],
}

pub const NONE: u16 = 0;
pub const LIST: u16 = 1;
pub const TOKEN: u16 = 2;
pub const RUN: u16 = 3;
pub const TEXT: u16 = 4;
pub const NUMBER: u16 = 5;
pub const CMD: u16 = 10;
pub const FIRST_STMT: u16 = 32;
pub const TABLE_BODY: u16 = 98;
pub const CHECK: u16 = 103;
pub const OPERATOR: u16 = 116;
pub const REPLACE: u16 = 119;

pub static ROOT: Slot = one(Class::Root);
pub static ROOT_ELEMENT: Slot = one(Class::RootElement);
pub static TOKENS: Slot = one(Class::Token);

const fn one(class: Class) -> Slot {
    let optional = false;
    Slot { class, optional }
}

const fn maybe(slot: Slot) -> Slot {
    let optional = true;
    let class = slot.class;
    Slot { class, optional }
}

const fn kind(number: u16) -> Slot {
    kinds(number, number)
}

const fn kinds(first: u16, last: u16) -> Slot {
    one(Class::Kinds(first, last))
}

const fn list(element: &'static Slot) -> Slot {
    one(Class::List(element))
}

const R: Slot = one(Class::Run);
const T: Slot = one(Class::Text);
const N: Slot = one(Class::Number(i64::MIN, i64::MAX));
const DIMENSIONS: Slot = one(Class::Number(0, 255));
const OR_R: Slot = maybe(R);
const OR_T: Slot = maybe(T);
const OR_N: Slot = maybe(N);
const RUNS: Slot = list(&R);
const SELECT: Slot = kind(80);
const ONE_SELECT: Slot = kinds(83, 84);
const COMPOUNDS: Slot = list(&kind(82));
const FROM: Slot = kind(85);
const TABLE: Slot = kinds(87, 90);
const JOINS: Slot = list(&kind(86));
const JOIN_CONSTRAINT: Slot = kinds(91, 92);
const COLUMN: Slot = kind(100);
const COLUMNS: Slot = list(&kind(100));
const CONSTRAINT: Slot = kinds(101, 104);
const NAMED_CONSTRAINTS: Slot = list(&kind(120));
const REFERENCES: Slot = kind(105);
const TYPE: Slot = kind(107);
const WITH: Slot = maybe(kind(110));
const TABLE_EXPRS: Slot = list(&kind(106));
const FIELDS: Slot = list(&kind(114));
const ROWS: Slot = list(&RUNS);

macro_rules! rows {
    ($($number:literal $name:ident $flags:expr, [$($slot:expr),*];)*) => {
        &[$(Kind { number: $number, name: stringify!($name), flags: $flags, slots: &[$($slot),*] }),*]
    };
}

const NO: Flags = Flags::Bits(&[]);
const IF_EXISTS: Flags = Flags::Bits(&["if_exists"]);
const IF_NOT_EXISTS: Flags = Flags::Bits(&["if_not_exists"]);

/// One row a kind that has slots of its own, the numbers rising.
#[rustfmt::skip]
pub static KINDS: &[Kind] = rows! {
    10 Cmd Flags::UpTo(3), [kinds(32, 64)];
    32 AlterTable NO, [R, kinds(93, 97)];
    33 Analyze NO, [OR_R];
    34 Attach NO, [R, R, OR_R];
    35 Begin NO, [OR_R, OR_R];
    36 Commit NO, [OR_R];
    37 CreateIndex Flags::Bits(&["unique", "if_not_exists"]), [R, R, OR_R, RUNS, list(&kind(118)), OR_R];
    38 CreateTable Flags::Bits(&["temporary", "if_not_exists"]), [R, kinds(98, 99)];
    39 CreateTrigger Flags::Bits(&["temporary", "if_not_exists", "for_each_row"]), [R, OR_R, R, R, OR_R, RUNS];
    40 CreateView Flags::Bits(&["temporary", "if_not_exists"]), [R, RUNS, SELECT];
    41 CreateMaterializedView IF_NOT_EXISTS, [R, RUNS, SELECT];
    42 CreateVirtualTable IF_NOT_EXISTS, [R, R, RUNS];
    43 Delete NO, [WITH, R, OR_R, OR_R, RUNS];
    44 Detach NO, [R];
    45 DropIndex IF_EXISTS, [R];
    46 DropTable IF_EXISTS, [R];
    47 DropTrigger IF_EXISTS, [R];
    48 DropView IF_EXISTS, [R];
    49 Insert NO, [WITH, maybe(kind(119)), R, RUNS, R, RUNS];
    50 Pragma NO, [R, OR_R];
    51 Reindex NO, [OR_R];
    52 Optimize NO, [OR_R];
    53 Release NO, [R];
    54 Rollback NO, [OR_R, OR_R];
    55 Savepoint NO, [R];
    56 SelectStmt NO, [SELECT];
    57 Update NO, [WITH, OR_R, R, OR_R, RUNS, maybe(FROM), OR_R, RUNS];
    58 Vacuum NO, [OR_R, OR_R];
    59 CreateType IF_NOT_EXISTS, [T, kinds(111, 113)];
    60 CreateDomain Flags::Bits(&["if_not_exists", "not_null"]), [T, T, OR_R, list(&kind(117))];
    61 DropType IF_EXISTS, [T];
    62 CreateSequence Flags::Bits(&["if_not_exists", "cycle"]), [R, OR_N, OR_N, OR_N, OR_N];
    63 DropSequence IF_EXISTS, [R];
    64 DropDomain IF_EXISTS, [T];
    80 Select NO, [WITH, kind(81), OR_R, OR_R];
    81 SelectBody NO, [ONE_SELECT, COMPOUNDS];
    82 CompoundSelect NO, [R, ONE_SELECT];
    83 OneSelect NO, [OR_R, RUNS, maybe(FROM), OR_R, OR_R, RUNS];
    84 Values NO, [ROWS];
    85 FromClause NO, [TABLE, JOINS];
    86 JoinedTable NO, [R, TABLE, maybe(JOIN_CONSTRAINT)];
    87 Table NO, [R, OR_R, OR_R];
    88 TableCall NO, [R, RUNS, OR_R];
    89 SelectTable NO, [SELECT, OR_R];
    90 Sub NO, [FROM, OR_R];
    91 On NO, [R];
    92 Using NO, [RUNS];
    93 RenameTo NO, [R];
    94 AddColumn NO, [COLUMN];
    95 AlterColumn NO, [R, COLUMN];
    96 RenameColumn NO, [R, R];
    97 DropColumn NO, [R];
    98 ColumnsAndConstraints NO, [COLUMNS, NAMED_CONSTRAINTS, OR_T, OR_T];
    99 AsSelect NO, [SELECT];
    100 ColumnDefinition NO, [R, maybe(TYPE), RUNS];
    101 PrimaryKey Flags::Bits(&["auto_increment"]), [RUNS, OR_R];
    102 Unique NO, [RUNS, OR_R];
    103 Check NO, [R, OR_T];
    104 ForeignKey NO, [RUNS, REFERENCES, OR_R];
    105 ForeignKeyClause NO, [R, RUNS, RUNS];
    106 CommonTableExpr Flags::UpTo(2), [R, RUNS, SELECT];
    107 Type NO, [T, OR_R, DIMENSIONS];
    108 UpsertSet NO, [RUNS, OR_R];
    109 UpsertNothing NO, [];
    110 With NO, [R, TABLE_EXPRS];
    111 Struct NO, [FIELDS];
    112 Union NO, [FIELDS];
    113 CustomType NO, [list(&kind(115)), T, OR_R, OR_R, list(&kind(116)), OR_R];
    114 TypeField NO, [R, TYPE];
    115 TypeParam NO, [T, OR_T];
    116 OperatorClause NO, [T, OR_T];
    117 DomainConstraint NO, [OR_T, R];
    118 NameAndValue NO, [R, R];
    119 Replace NO, [];
    120 NamedTableConstraint NO, [OR_R, CONSTRAINT];
};

/// The row of a kind. Leaves, LIST and RUN have none.
pub fn row(number: u16) -> Option<&'static Kind> {
    let place = KINDS.binary_search_by_key(&number, |kind| kind.number);
    place.ok().map(|place| &KINDS[place])
}

/// Whether a record of this kind may stand in this slot.
pub fn takes(slot: &Slot, kind: u16) -> bool {
    (slot.optional && kind == NONE) || class_takes(&slot.class, kind)
}

fn class_takes(class: &Class, kind: u16) -> bool {
    match *class {
        Class::Run => kind == RUN,
        Class::Text => kind == TEXT,
        Class::Token => kind == TOKEN,
        Class::Number(..) => kind == NUMBER,
        Class::Kinds(first, last) => kind == RUN || (first..=last).contains(&kind),
        Class::List(_) => kind == LIST,
        Class::Root => kind == CMD || kind == LIST || root_element(kind),
        Class::RootElement => root_element(kind),
    }
}

fn root_element(kind: u16) -> bool {
    let of_its_own = kind >= FIRST_STMT && kind != REPLACE && row(kind).is_some();
    kind == RUN || of_its_own
}

impl Flags {
    pub fn takes(&self, flags: u16) -> bool {
        flags <= self.last()
    }

    /// All values from 0 to this one are defined.
    pub fn last(&self) -> u16 {
        match *self {
            Flags::Bits(names) => (1 << names.len()) - 1,
            Flags::UpTo(last) => last,
        }
    }
}

/// R1: the numbers that a token has.
pub fn known_token(number: u16) -> bool {
    matches!(number, 0..=168 | 185..=193 | 255)
}
