//! Contracts written by hand with the full list that document 01 gives them, by hand too: P1 to
//! P14, each half (`page`); W, what the page calls tempting and wrong (`tempting`); S, the readings
//! that docs/RULES.md settles and that no verdict shows, since a verdict ends at the first offence
//! (`settled`); M, more than one offence of a rule in one item (`several`); F, offences far down a
//! large image with large span words (`far`); E, which entry a place is in, of request E8 (`entries`).
//! Contracts with what request E3 says of places in them stand apart (`reasons`).
//!
//! A place is named by a mark on its node. A list is written as `25ba 61x`: the code, the mark of
//! the place, and the mark of the related node where there is one. The entry of a record is the one
//! whose part the marked node is.

mod entries;
mod far;
mod page;
mod reasons;
mod settled;
mod several;
mod tempting;

pub use page::p2;
pub use reasons::{Explained, most_reasons, reasons};

use crate::build::*;
use crate::{Node, name, node};
use form::kind;

pub struct Pattern {
    pub name: &'static str,
    pub tree: Node,
    list: &'static str,
}

impl Pattern {
    /// The full list, each record as its four words, with the marks turned into node numbers.
    pub fn list(&self) -> Vec<[u16; 4]> {
        self.list.split_whitespace().map(|text| self.record(text)).collect()
    }

    fn record(&self, text: &str) -> [u16; 4] {
        let (code, marks) = text.split_at(2);
        let place = |mark| self.tree.place(mark).unwrap_or(usize::MAX) as u16;
        let mut places = marks.chars().map(place);
        let mut next = || places.next().unwrap_or(0);
        let entry = marks.chars().next().map_or(0, |mark| self.entry_with(mark));
        [code.parse().unwrap_or(0), next(), next(), entry as u16]
    }

    /// The number of the Entry that the marked node is part of, 0 where it is part of none.
    fn entry_with(&self, mark: char) -> usize {
        let mut entry = 0;
        self.tree.for_each(&mut |i, node| {
            if node.kind == kind::ENTRY && node.place(mark).is_some() {
                entry = i;
            }
        });
        entry
    }
}

/// A pattern with the report that the documents give it, by hand too.
pub type Reported = (Pattern, &'static str);

fn with_report(name: &'static str, tree: Node, list: &'static str, report: &'static str) -> Reported {
    (Pattern { name, tree, list }, report)
}

pub fn reported() -> Vec<Reported> {
    [far::reported(), entries::reported()].into_iter().flatten().collect()
}

/// All of them.
pub fn patterns() -> Vec<Pattern> {
    let groups = [page::all(), tempting::all(), settled::all(), several::all()];
    let reported = reported().into_iter().map(|(pattern, _)| pattern);
    groups.into_iter().flatten().chain(reported).collect()
}

fn pattern(name: &'static str, items: Vec<Node>, list: &'static str) -> Pattern {
    Pattern { name, tree: contract("c", items), list }
}

/// A pattern whose one item is an entry.
fn of_entry(name: &'static str, parts: Vec<Node>, list: &'static str) -> Pattern {
    pattern(name, vec![entry("e", parts)], list)
}

/// A pattern of a State block with fields of type `u8` and an entry.
fn with_state(name: &'static str, fields: &[&str], parts: Vec<Node>, list: &'static str) -> Pattern {
    pattern(name, vec![plain_state(fields), entry("e", parts)], list)
}

fn plain_state(fields: &[&str]) -> Node {
    state(fields.iter().map(|f| field_decl(f, ty("u8"))).collect())
}

fn asset_type() -> Node {
    ty("Q_Asset")
}

fn asset_of(inner: &str) -> Node {
    ty_of("Q_Asset", vec![ty(inner)])
}

/// The parameter `x: Q_Asset` whose Name bears the mark `x`.
fn asset_x() -> Node {
    marked_param("x", 'x', asset_type())
}

fn marked_param(text: &str, mark: char, ty: Node) -> Node {
    node(kind::PARAM, vec![name(text).marked(mark), ty])
}

fn marked_field(text: &str, mark: char, ty: Node) -> Node {
    node(kind::FIELD_DECL, vec![name(text).marked(mark), ty])
}
