//! What each code of a report and each refusal of an image means, in words for a pharmacist. They
//! stand in one file, `words.txt`; help, `explain`, text, HTML and SARIF are made from it.

#![deny(missing_docs)]

mod case;
mod find;
mod help;
mod read;

pub use case::Case;
pub use find::find;
pub use help::{explain, explain_claims, explain_list, explain_term, help_page, last_lines};
pub use read::{Trouble, read};

use std::sync::OnceLock;

/// The file of words.
pub const WORDS: &str = include_str!("../words.txt");

/// What there is to say of one number.
#[derive(Clone, Debug, Default, PartialEq, Eq)]
#[non_exhaustive]
pub struct Entry {
    /// Document 01's number.
    pub number: u16,
    /// A few words, without names of the contract.
    pub title: String,
    /// The sentence of a report, with `{entry}`, `{name}` and the other `BLANKS` where the contract's
    /// names stand.
    pub fault: String,
    /// The sentence where a `burns` clause is one of the uses, for 62.
    pub burned: String,
    /// The same where `burns` alone uses it more than once, since parameters have one name.
    pub twice: String,
    /// What stands at the place.
    pub here: String,
    /// What stands at the related place, where the rule has one.
    pub there: String,
    /// What stands at a further place of 62: the first use, where that is in a statement.
    pub first: String,
    /// The same of uses after the second.
    pub more: String,
    /// The same of a `burns` clause that is the only use, of a lot that has no fault.
    pub only: String,
    /// The same of a `burns` clause, which is the first use.
    pub clause: String,
    /// The same of each `burns` clause where they alone use it more than once.
    pub clauses: String,
    /// What the rule looks at.
    pub means: String,
    /// Why a ward should care.
    pub matters: String,
    /// How to mend it, in one line, with blanks as in `fault`.
    pub mend: String,
    /// The same for the cases of the code, in the order of `Case::of_code`.
    pub mends: Vec<(Case, String)>,
    /// How to mend it, at length and without blanks.
    pub how: String,
    /// An example that shows it. Empty for refusals that no source can show.
    pub before: String,
    /// The same, mended.
    pub after: String,
}

impl Entry {
    /// How to mend it, in one line, for a case.
    pub fn mend_for(&self, case: Case) -> &str {
        self.mends.iter().find(|(of, _)| *of == case).map_or(&self.mend, |(_, mend)| mend)
    }
}

/// A word of the language, a line of the report or an exit status, in plain words.
#[derive(Clone, Debug, PartialEq, Eq)]
#[non_exhaustive]
pub struct Term {
    /// The word, the line or the status.
    pub word: String,
    /// Other words by which `explain` finds it.
    pub also: Vec<String>,
    /// What it means.
    pub means: String,
}

/// Something that no rule looks at.
#[derive(Clone, Debug, PartialEq, Eq)]
#[non_exhaustive]
pub struct Gap {
    /// What it is called.
    pub word: String,
    /// What is not looked at.
    pub means: String,
    /// A contract that is wrong in this, and is accepted.
    pub example: String,
}

/// Everything that the file says, in its order.
#[derive(Clone, Debug, Default, PartialEq, Eq)]
#[non_exhaustive]
pub struct Words {
    /// The words of the language.
    pub glossary: Vec<Term>,
    /// The lines of a report.
    pub lines: Vec<Term>,
    /// The exit statuses.
    pub statuses: Vec<Term>,
    /// The three checks.
    pub checks: Vec<Term>,
    /// What is not checked.
    pub gaps: Vec<Gap>,
    /// The refusals of an image.
    pub refusals: Vec<Entry>,
    /// The codes of offences.
    pub codes: Vec<Entry>,
}

/// How a report for people begins where the text that was given is not the image's.
pub const OTHER_TEXT: &str = "OTHER TEXT";

/// How the answer to `isonkaypu why` begins, as the help page has it.
pub const USES_OF_A_LOT: &str = "N USES  FILE: the lot NAME of entry ENTRY, node NODE";

/// What people call the three checks, in the order in which they run.
pub const CHECKS: [&str; 3] = ["names", "access", "lots"];

/// The codes of document 01, in the report's order.
pub const CODES: &[u16] =
    &[20, 21, 22, 23, 24, 25, 26, 27, 28, 29, 30, 31, 32, 33, 34, 35, 36, 37, 38, 39, 40, 50, 51, 60, 61, 62];

/// The refusals of documents 01 and 02.
pub const REFUSALS: &[u16] = &[1, 2, 3, 4, 5, 6, 7, 8, 9, 10, 13];

/// The codes that speak of another place: those whose records can have a related place, and those whose
/// other declaration is found in the tree (24, 26, 28, 29, 31).
pub const WITH_OTHERS: &[u16] = &[20, 21, 23, 24, 25, 26, 27, 28, 29, 31, 62];

/// The code whose other places are uses of a lot.
pub const USES: u16 = 62;

/// The blanks that a sentence may have: what the contract's names are filled in for.
pub const BLANKS: &[&str] = &[
    "entry",
    "name",
    "other",
    "where",
    "called",
    "clause",
    "parameter",
    "signature",
    "count",
    "given",
    "declared",
    "writes",
    "taker",
    // those of a case
    "near",
    "fresh",
    "taken",
    "declare",
    "event",
    "asset",
    "owner",
    "stored",
    "base",
    "wrong",
    "to",
    "second",
];

fn words() -> &'static Words {
    static READ: OnceLock<Words> = OnceLock::new();
    // the tests read the file that is shipped, so there is no trouble here
    READ.get_or_init(|| read(WORDS).unwrap_or_default())
}

/// The words for a code, 20 to 62.
pub fn code(number: u16) -> Option<&'static Entry> {
    codes().iter().find(|e| e.number == number)
}

/// The words for a refusal: 1 to 8 of an image, 9 of the list, 10 and 13 of the question why.
pub fn refusal(number: u16) -> Option<&'static Entry> {
    refusals().iter().find(|e| e.number == number)
}

/// All codes, in the report's order.
pub fn codes() -> &'static [Entry] {
    &words().codes
}

/// All refusals, in the order in which they are tested.
pub fn refusals() -> &'static [Entry] {
    &words().refusals
}

/// The words of the language, the plainest first.
pub fn glossary() -> &'static [Term] {
    &words().glossary
}

/// The lines of a report.
pub fn lines() -> &'static [Term] {
    &words().lines
}

/// What each check looks at, in the order of `CHECKS`.
pub fn checks() -> &'static [Term] {
    &words().checks
}

/// What no check looks at.
pub fn gaps() -> &'static [Gap] {
    &words().gaps
}

/// The exit statuses of the programs.
pub fn statuses() -> &'static [Term] {
    &words().statuses
}

#[cfg(test)]
mod tests {
    use super::*;

    #[test]
    fn the_shipped_file_is_read() {
        assert_eq!(read(WORDS).map_err(|t| t.to_string()).map(|w| w.codes.len()), Ok(CODES.len()));
    }
}
