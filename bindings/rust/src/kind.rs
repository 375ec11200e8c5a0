//! The kinds of records by name, with their flags and slots.

/// A flag of a kind: one bit, set or not.
#[derive(Clone, Copy, Debug, PartialEq, Eq, Hash)]
#[allow(missing_docs)]
pub enum Flag {
    Unique,
    Temporary,
    IfExists,
    IfNotExists,
    ForEachRow,
    NotNull,
    Cycle,
    AutoIncrement,
}

/// Flags of [`Kind::Cmd`]: EXPLAIN.
pub const EXPLAIN: u16 = 1;
/// Flags of [`Kind::Cmd`]: EXPLAIN QUERY PLAN.
pub const EXPLAIN_QUERY_PLAN: u16 = 2;
/// Flags of [`Kind::Cmd`]: EXPLAIN QUERY PLAN with Json.
pub const EXPLAIN_QUERY_PLAN_JSON: u16 = 3;
/// Flags of [`Kind::CommonTableExpr`]: AS MATERIALIZED.
pub const MATERIALIZED: u16 = 1;
/// Flags of [`Kind::CommonTableExpr`]: AS NOT MATERIALIZED.
pub const NOT_MATERIALIZED: u16 = 2;

macro_rules! kinds {
    ($($name:ident = $number:literal, [$($flag:ident),*], $slots:literal;)*) => {
        /// A kind of record with slots of its own, named as in fmt.rs; `SelectStmt` is the statement, `Select` the clause.
        ///
        /// Of each the number and the slots are told. R is a [`Run`](crate::Run), T a text, N a number, `?` means "or NONE",
        /// `[..]` a list with one such place an element, and numbers are kinds. Where a kind from 32 up may stand, a
        /// [`Run`](crate::Run) may stand too.
        #[derive(Clone, Copy, Debug, PartialEq, Eq, Hash)]
        #[repr(u16)]
        pub enum Kind {
            $(#[doc = concat!("Kind ", $number, ". Slots: `", $slots, "`")] $name = $number,)*
        }

        impl Kind {
            /// All kinds, the numbers rising.
            pub const ALL: &'static [Kind] = &[$(Kind::$name,)*];

            /// Its flags, the first at bit 0. Cmd and CommonTableExpr have none by name, but the numbers 0 to 3 and 0 to 2.
            pub const fn flags(self) -> &'static [Flag] {
                match self {
                    $(Kind::$name => &[$(Flag::$flag),*],)*
                }
            }

            /// Its slots, as they are told at each kind.
            pub const fn slots(self) -> &'static str {
                match self {
                    $(Kind::$name => $slots,)*
                }
            }
        }
    };
}

impl Kind {
    /// Its number.
    pub const fn number(self) -> u16 {
        self as u16
    }

    /// The kind that has a number, if one does.
    pub fn of(number: u16) -> Option<Kind> {
        Kind::ALL
            .iter()
            .copied()
            .find(|kind| kind.number() == number)
    }
}

kinds! {
    Cmd = 10, [], "32-64";
    AlterTable = 32, [], "R, 93-97";
    Analyze = 33, [], "R?";
    Attach = 34, [], "R, R, R?";
    Begin = 35, [], "R?, R?";
    Commit = 36, [], "R?";
    CreateIndex = 37, [Unique, IfNotExists], "R, R, R?, [R], [118], R?";
    CreateTable = 38, [Temporary, IfNotExists], "R, 98-99";
    CreateTrigger = 39, [Temporary, IfNotExists, ForEachRow], "R, R?, R, R, R?, [R]";
    CreateView = 40, [Temporary, IfNotExists], "R, [R], 80";
    CreateMaterializedView = 41, [IfNotExists], "R, [R], 80";
    CreateVirtualTable = 42, [IfNotExists], "R, R, [R]";
    Delete = 43, [], "110?, R, R?, R?, [R]";
    Detach = 44, [], "R";
    DropIndex = 45, [IfExists], "R";
    DropTable = 46, [IfExists], "R";
    DropTrigger = 47, [IfExists], "R";
    DropView = 48, [IfExists], "R";
    Insert = 49, [], "110?, 119?, R, [R], R, [R]";
    Pragma = 50, [], "R, R?";
    Reindex = 51, [], "R?";
    Optimize = 52, [], "R?";
    Release = 53, [], "R";
    Rollback = 54, [], "R?, R?";
    Savepoint = 55, [], "R";
    SelectStmt = 56, [], "80";
    Update = 57, [], "110?, R?, R, R?, [R], 85?, R?, [R]";
    Vacuum = 58, [], "R?, R?";
    CreateType = 59, [IfNotExists], "T, 111-113";
    CreateDomain = 60, [IfNotExists, NotNull], "T, T, R?, [117]";
    DropType = 61, [IfExists], "T";
    CreateSequence = 62, [IfNotExists, Cycle], "R, N?, N?, N?, N?";
    DropSequence = 63, [IfExists], "R";
    DropDomain = 64, [IfExists], "T";
    Select = 80, [], "110?, 81, R?, R?";
    SelectBody = 81, [], "83-84, [82]";
    CompoundSelect = 82, [], "R, 83-84";
    OneSelect = 83, [], "R?, [R], 85?, R?, R?, [R]";
    Values = 84, [], "[[R]]";
    FromClause = 85, [], "87-90, [86]";
    JoinedTable = 86, [], "R, 87-90, 91-92?";
    Table = 87, [], "R, R?, R?";
    TableCall = 88, [], "R, [R], R?";
    TableSelect = 89, [], "80, R?";
    Sub = 90, [], "85, R?";
    On = 91, [], "R";
    Using = 92, [], "[R]";
    RenameTo = 93, [], "R";
    AddColumn = 94, [], "100";
    AlterColumn = 95, [], "R, 100";
    RenameColumn = 96, [], "R, R";
    DropColumn = 97, [], "R";
    ColumnsAndConstraints = 98, [], "[100], [120], T?, T?";
    AsSelect = 99, [], "80";
    ColumnDefinition = 100, [], "R, 107?, [R]";
    PrimaryKey = 101, [AutoIncrement], "[R], R?";
    Unique = 102, [], "[R], R?";
    Check = 103, [], "R, T?";
    ForeignKey = 104, [], "[R], 105, R?";
    ForeignKeyClause = 105, [], "R, [R], [R]";
    CommonTableExpr = 106, [], "R, [R], 80";
    TypeName = 107, [], "T, R?, N";
    UpsertSet = 108, [], "[R], R?";
    UpsertNothing = 109, [], "none";
    With = 110, [], "R, [106]";
    Struct = 111, [], "[114]";
    Union = 112, [], "[114]";
    CustomType = 113, [], "[115], T, R?, R?, [116], R?";
    TypeField = 114, [], "R, 107";
    TypeParam = 115, [], "T, T?";
    OperatorClause = 116, [], "T, T?";
    DomainConstraint = 117, [], "T?, R";
    Pair = 118, [], "R, R";
    Replace = 119, [], "none";
    NamedTableConstraint = 120, [], "R?, 101-104";
}
