//! The names that generated contracts use: few, in pairs that differ in case only, and all the
//! words that the rules mention.

/// Every word that a rule tests for.
pub const RULE_WORDS: &[&str] = &[
    "get",
    "contains",
    "has",
    "split",
    "set",
    "remove",
    "merge",
    "insert",
    "debit",
    "credit",
    "send",
    "send_asset",
    "mint",
    "mint_asset",
    "deployer",
    "Q_Asset",
    "Q_Address",
    "QTOV",
];

/// Near to a rule's word, and none.
pub const NEAR_WORDS: &[&str] = &[
    "Get",
    "SET",
    "Send",
    "mint_Asset",
    "Deployer",
    "Q_asset",
    "q_Address",
    "qtov",
    "Split",
    "Has",
    "sends",
    "min",
    "deploye",
    "QTO",
    "QTOV_",
    "Q_Asset1",
];

pub const FIELDS: &[&str] = &["stock", "Stock", "limit", "Limit", "owner", "ward", "Ward", "lots", "s"];
pub const PARAMS: &[&str] = &["x", "X", "to", "To", "amount", "who", "Who", "p"];
pub const LOCALS: &[&str] = &["part", "Part", "rest", "lot", "Lot", "y", "Y"];
/// Names that no declaration takes unless it is tempted.
pub const FREE: &[&str] = &["foo", "Foo", "u", "U", "other"];
pub const ASSETS: &[&str] = &["Morphine", "morphine", "T", "t", "Ketamine"];
pub const EVENTS: &[&str] = &["Moved", "moved", "Done", "Burned"];
pub const ENTRIES: &[&str] = &["issue", "Issue", "burn", "count", "e", "f"];
pub const TYPES: &[&str] = &["u8", "u64", "Map", "List", "Quorum", "T", "K"];
pub const NUMBERS: &[&str] = &["0", "1", "2", "3", "18", "2x", "0_"];

/// Methods that the language knows and that write nothing.
pub const READING: &[&str] = &["get", "contains"];
/// Methods that the language knows and that write their base.
pub const WRITING: &[&str] = &["merge", "split", "credit", "debit", "insert", "remove", "set"];
/// Functions that the language knows.
pub const FUNCTIONS: &[&str] = &["send", "send_asset", "mint", "mint_asset"];
