//! The second way to the reasons of a lot: place by place and from the nodes' numbers alone. No rows are
//! kept. Parameters stand before Lets, so that of the lots of a name in an entry the first row is the one
//! of the least number, and the last row that of the greatest.

use crate::consumers::found_up;
use form::Tree;
use form::kind::*;
use reference::{Occurrence, Reason};

/// A tracked asset and the Entry that it stands in.
struct Tracked<'a> {
    place: usize,
    entry: usize,
    name: &'a [u8],
}

/// What there is to ask places of an image about.
pub struct Places<'t, 'a> {
    tree: &'t Tree<'a>,
    tracked: Vec<Tracked<'a>>,
    counted: Vec<Occurrence>,
}

impl<'t, 'a> Places<'t, 'a> {
    pub fn of(tree: &'t Tree<'a>) -> Places<'t, 'a> {
        let found = |place| {
            let name = tracked_name(tree, place)?;
            Some(Tracked { place, entry: tree.entry_of(place)?, name: tree.text(name) })
        };
        Places { tree, tracked: tree.all().filter_map(found).collect(), counted: found_up(tree) }
    }

    /// Why the lot at a place is refused, or is not; nothing where no lot stands there.
    pub fn reasons(&self, place: usize) -> Option<Vec<Reason>> {
        let lot = self.tracked.iter().find(|lot| lot.place == place)?;
        let mut reasons = Vec::new();
        if self.namesakes(place).next() == Some(place) {
            reasons.extend(
                self.namesakes(place).filter_map(|name| self.clauses(name).next()).map(Reason::Burned),
            );
        }
        if self.namesakes(place).last() == Some(place) {
            let of_lot = |used: &&Occurrence| {
                self.tree.text(used.ident) == lot.name && self.tree.entry_of(used.ident) == Some(lot.entry)
            };
            reasons.extend(self.counted.iter().filter(of_lot).copied().map(Reason::Used));
        }
        Some(reasons)
    }

    /// The lots of the same entry and name as the lot at a place, itself among them, by their numbers.
    pub fn namesakes(&self, place: usize) -> impl Iterator<Item = usize> + '_ {
        let lot = self.tracked.iter().find(|lot| lot.place == place);
        let alike =
            move |other: &&Tracked| lot.is_some_and(|l| (l.entry, l.name) == (other.entry, other.name));
        self.tracked.iter().filter(alike).map(|other| other.place)
    }

    /// The Names of the Burns clauses that name the first argument of a parameter's `Q_Asset`, given the
    /// parameter's Name; none for a Let.
    pub fn clauses(&self, name: usize) -> impl Iterator<Item = usize> + '_ {
        let burned = burnable(self.tree, name);
        let entry = self.tree.entry_of(name);
        let within = entry.map_or(0..0, |entry| entry..self.tree.end(entry));
        let clauses = within.filter(|node| self.tree.kind(*node) == BURNS).map(|clause| clause + 1);
        clauses.filter(move |clause| burned == Some(self.tree.text(*clause)))
    }
}

/// The Name of a tracked asset, given its place: "`Q_Asset` parameters (place Name); then Lets …
/// (place Let)".
fn tracked_name(tree: &Tree, place: usize) -> Option<usize> {
    let is_lot = match tree.kind(place) {
        // a Param, its Name, its Type, the Type's Name
        NAME => tree.kind(place - 1) == PARAM && tree.text(place + 2) == b"Q_Asset",
        LET => {
            tree.above(place).next().is_some_and(|above| tree.kind(above) == ENTRY) && produces(tree, place)
        }
        _ => false,
    };
    is_lot.then_some(if tree.kind(place) == LET { place + 1 } else { place })
}

/// "Lets whose peeled value is a Call with callee Field `split` or Ident `mint`"
fn produces(tree: &Tree, statement: usize) -> bool {
    let value = (statement + 2..).find(|node| ![CHECKED, WRAPPING].contains(&tree.kind(*node)));
    let callee = value.filter(|value| tree.kind(*value) == CALL).map_or(0, |call| call + 1);
    match tree.kind(callee) {
        IDENT => tree.text(callee) == b"mint",
        // the last node of a Field is its Name
        FIELD => tree.text(tree.end(callee) - 1) == b"split",
        _ => false,
    }
}

/// The first argument of a parameter's type, where that is a type, given the parameter's Name.
fn burnable<'a>(tree: &Tree<'a>, name: usize) -> Option<&'a [u8]> {
    let (ty, argument) = (name + 1, name + 3);
    let is_type = argument < tree.end(ty) && tree.kind(argument) == TYPE;
    (tree.kind(name) == NAME && is_type).then(|| tree.text(argument + 1))
}
