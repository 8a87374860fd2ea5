//! The list's records: an offence in document 01's words, and by request E8 of document 02, "Which
//! entry?", the entry that it stands in.

use crate::offence::Offence;
use crate::tree::Tree;

/// How many words a record has: "code, place, related", and "Each list record gets a fourth word".
pub const RECORD_WORDS: usize = 4;

#[derive(Clone, Copy, Debug, PartialEq, Eq)]
pub struct Record {
    pub code: u16,
    pub place: u16,
    pub related: u16,
    pub entry: u16,
}

impl Record {
    pub fn of(tree: &Tree, offence: Offence) -> Record {
        let Offence { code, place, related } = offence;
        let entry = entry_of(tree, place);
        Record { code, place: place as u16, related: related as u16, entry: entry as u16 }
    }

    pub fn words(&self) -> [u16; RECORD_WORDS] {
        [self.code, self.place, self.related, self.entry]
    }
}

/// "the Entry node that contains the place, 0 outside entries"
fn entry_of(tree: &Tree, place: usize) -> usize {
    let contains = |entry: &usize| (*entry..tree.end(*entry)).contains(&place);
    tree.entries().into_iter().find(contains).unwrap_or(0)
}
