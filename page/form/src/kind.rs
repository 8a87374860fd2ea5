//! Document 01, "The image": the kinds of nodes by their numbers, and the families that the table
//! of children speaks of.

macro_rules! kinds {
    ($($name:ident = $number:literal, $shown:literal;)*) => {
        $(#[doc = concat!("The number of ", $shown, ".")] pub const $name: u8 = $number;)*

        /// Every kind of the table.
        pub const ALL: &[u8] = &[$($number),*];

        /// The kind in document 01's word, for dumps.
        pub fn word(kind: u8) -> &'static str {
            match kind {
                $($number => $shown,)*
                _ => "no kind",
            }
        }
    };
}

kinds! {
    CONTRACT = 1, "Contract";
    ASSET = 2, "Asset";
    STATE = 3, "State";
    FIELD_DECL = 4, "FieldDecl";
    EVENT = 5, "Event";
    EVENT_PARAM = 6, "event parameter";
    GENESIS = 7, "Genesis";
    INVARIANT = 8, "Invariant";
    ENTRY = 9, "Entry";
    PARAM = 10, "Param";
    TYPE = 11, "Type";
    INT_OF_TYPE = 12, "IntLit of a type";
    M_OF_N = 13, "MofN";
    WRITES = 14, "Writes";
    READS = 15, "Reads";
    CONSERVES = 16, "Conserves";
    MINTS = 17, "Mints";
    BURNS = 18, "Burns";
    LIMITS = 19, "Limits";
    DENIES = 20, "Denies";
    AFTER = 21, "After";
    DURATION = 22, "Duration";
    NAME = 23, "Name";
    GUARD = 24, "Guard";
    LET = 25, "Let";
    EMIT = 26, "Emit";
    ASSIGN = 27, "Assign";
    STMT_EXPR = 28, "Stmt::Expr";
    INT = 32, "Int";
    DATE = 33, "Date";
    STR = 34, "Str";
    IDENT = 35, "Ident";
    CALLER = 36, "Caller";
    NATIVE = 37, "Native";
    IN_ASSET = 38, "InAsset";
    NOW = 39, "Now";
    UNARY = 40, "Unary";
    BINARY = 41, "Binary";
    FIELD = 42, "Field";
    CALL = 43, "Call";
    CHECKED = 44, "Checked";
    WRAPPING = 45, "Wrapping";
}

/// "items 2,3,5,7,8,9"
pub fn is_item(kind: u8) -> bool {
    matches!(kind, ASSET | STATE | EVENT | GENESIS | INVARIANT | ENTRY)
}

/// The clauses of an entry: 14 to 21.
pub fn is_clause(kind: u8) -> bool {
    matches!(kind, WRITES..=AFTER)
}

/// The statements: 24 to 28.
pub fn is_statement(kind: u8) -> bool {
    matches!(kind, GUARD..=STMT_EXPR)
}

/// "Expressions are 32 to 45."
pub fn is_expression(kind: u8) -> bool {
    matches!(kind, INT..=WRAPPING)
}

/// "any of 11, 12, 13"
pub fn is_type_argument(kind: u8) -> bool {
    matches!(kind, TYPE | INT_OF_TYPE | M_OF_N)
}

/// "Kinds 12, 23 and 35 carry a name number"
pub fn carries_a_name(kind: u8) -> bool {
    matches!(kind, INT_OF_TYPE | NAME | IDENT)
}
