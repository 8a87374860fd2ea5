//! The plain reading of documents 01 and 02, to be held beside the page: simple, slow, and right
//! for any bytes. It was written from the page and from the readings that docs/RULES.md settles,
//! not from the published Rust, so that the two can judge each other.
//!
//! `admission` holds refusals 1 to 8, `model` the three questions, `resolve`, `access` and
//! `linear` the offences (`linear` also what consumes a counted occurrence), `record` what the list has of
//! each, `why` what makes a tracked asset unused or used more than once, `report` the program's text; this
//! file holds what the public functions answer.

pub mod admission;
pub mod image;
pub mod tree;

mod access;
mod linear;
mod model;
mod offence;
mod record;
mod report;
mod resolve;
mod signature;
mod why;

pub use admission::{admit, refusal};
pub use form::kind;
pub use linear::{Occurrence, counted_occurrences};
pub use model::Model;
pub use record::{RECORD_WORDS, Record};
pub use report::report;
pub use why::{Lot, Reason, lots, why};

use tree::Tree;

/// "with a list buffer of 32,768 words"
pub const LIST_WORDS: usize = 32_768;

/// "Passes run as resolve, access, linear"
#[derive(Clone, Copy, Debug, PartialEq, Eq)]
pub enum Pass {
    Resolve,
    Access,
    Linear,
}

impl Pass {
    pub const ALL: [Pass; 3] = [Pass::Resolve, Pass::Access, Pass::Linear];

    pub fn word(self) -> &'static str {
        match self {
            Pass::Resolve => "resolve",
            Pass::Access => "access",
            Pass::Linear => "linear",
        }
    }
}

/// "Acceptance is 0, place 0, spans 0."
#[derive(Clone, Copy, Debug, PartialEq, Eq, Default)]
pub struct Verdict {
    pub code: u16,
    pub place: u16,
    pub from: u32,
    pub to: u32,
}

/// The three questions about a name.
#[derive(Clone, Copy, Debug, PartialEq, Eq)]
pub enum Question {
    IsState,
    IsDeclaredAsset,
    IsKnownAsset,
}

impl Question {
    pub const ALL: [Question; 3] = [Question::IsState, Question::IsDeclaredAsset, Question::IsKnownAsset];

    pub fn ask(self, model: &Model, name: &[u8]) -> bool {
        match self {
            Question::IsState => model.is_state(name),
            Question::IsDeclaredAsset => model.is_declared_asset(name),
            Question::IsKnownAsset => model.is_known_asset(name),
        }
    }
}

/// "A question takes any bytes as the name and answers yes, no, or refusal 1 to 8."
pub fn question(question: Question, image: &[u8], name: &[u8]) -> Result<bool, u8> {
    let tree = admit(image)?;
    Ok(question.ask(&Model::of(&tree), name))
}

/// An admitted image with each pass's part of the full list.
pub struct Judged<'a> {
    pub tree: Tree<'a>,
    parts: [Vec<Record>; 3],
}

/// Runs the three passes over an image, or refuses it.
pub fn judge(image: &[u8]) -> Result<Judged<'_>, u8> {
    let tree = admit(image)?;
    let model = Model::of(&tree);
    let found = [resolve::resolve(&tree, &model), access::access(&tree, &model), linear::linear(&tree)];
    let parts = found.map(|part| part.into_iter().map(|offence| Record::of(&tree, offence)).collect());
    Ok(Judged { tree, parts })
}

impl Judged<'_> {
    /// A pass's own part of the list.
    pub fn part(&self, pass: Pass) -> &[Record] {
        &self.parts[pass as usize]
    }

    /// The full list: what resolve, access and linear write, one after the other.
    pub fn list(&self) -> Vec<Record> {
        self.parts.concat()
    }

    /// A pass refuses with the first record of its part.
    pub fn verdict(&self, pass: Pass) -> Verdict {
        let Some(first) = self.part(pass).first() else {
            return Verdict::default();
        };
        let (from, to) = self.spans(first.place);
        Verdict { code: first.code, place: first.place, from, to }
    }

    /// The full list into a lent buffer: the number of records, or 9; "words past the last record keep
    /// their values", and a refusal changes none.
    pub fn list_into(&self, words: &mut [u16]) -> Result<usize, u8> {
        let records = self.list();
        // request E8: "9 now means fewer than four words per offence"
        if words.len() < RECORD_WORDS * records.len() {
            return Err(9);
        }
        for (room, word) in words.iter_mut().zip(records.iter().flat_map(Record::words)) {
            *room = word;
        }
        Ok(records.len())
    }

    /// The two span words of a place.
    pub fn spans(&self, place: u16) -> (u32, u32) {
        let node = &self.tree.nodes[place as usize];
        (node.from, node.to)
    }
}

/// A pass's verdict, or the refusal of the image.
pub fn verdict(pass: Pass, image: &[u8]) -> Result<Verdict, u8> {
    Ok(judge(image)?.verdict(pass))
}

/// The full list of any bytes into a lent buffer: the number of records, or a refusal, which changes no
/// word.
pub fn list(image: &[u8], words: &mut [u16]) -> Result<usize, u8> {
    judge(image)?.list_into(words)
}
