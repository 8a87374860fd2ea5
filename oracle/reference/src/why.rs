//! Document 02, request E3, "Why is this lot refused?": for the place of a tracked asset every burn mark
//! and every counted occurrence of its row.

use crate::linear::{Occurrence, Row, rows};
use crate::tree::Tree;

/// A tracked asset: its place, and what uses it up.
pub struct Lot {
    pub place: usize,
    pub reasons: Vec<Reason>,
}

/// An entry of the answer.
#[derive(Clone, Copy, Debug, PartialEq, Eq)]
pub enum Reason {
    /// "the Name of the first Burns clause that gives the mark"
    Burned(usize),
    /// a "counted occurrence", with what consumes it
    Used(Occurrence),
}

impl Reason {
    /// Request E5: "E3's entries carry both (0 for a clause)."
    pub fn words(self) -> [u16; 2] {
        match self {
            Reason::Burned(clause) => [clause as u16, 0],
            Reason::Used(Occurrence { ident, consumer }) => [ident as u16, consumer as u16],
        }
    }
}

/// The tracked assets of all entries.
pub fn lots(tree: &Tree) -> Vec<Lot> {
    let of_entry = |entry| rows(tree, entry).into_iter().map(lot);
    tree.entries().into_iter().flat_map(of_entry).collect()
}

/// "one entry, a word, for each burn mark of that row, in parameter order … Then it gives every counted
/// occurrence once, in preorder."
fn lot(row: Row) -> Lot {
    let burned = row.marks.into_iter().map(Reason::Burned);
    let used = row.occurrences.into_iter().map(Reason::Used);
    Lot { place: row.place, reasons: burned.chain(used).collect() }
}

/// The words of the answer for a place and a buffer of so many words, given the lots of the image or its
/// refusal. "Refusals: 1 to 8, 13 when the place is no tracked asset, 10 for a short buffer, in that
/// order." A place is any number, so that one past the nodes is a place like others.
pub fn why(lots: Result<&[Lot], u8>, place: usize, room: usize) -> Result<Vec<u16>, u8> {
    let lot = lots?.iter().find(|lot| lot.place == place).ok_or(13)?;
    let words: Vec<u16> = lot.reasons.iter().flat_map(|reason| reason.words()).collect();
    if room < words.len() { Err(10) } else { Ok(words) }
}
