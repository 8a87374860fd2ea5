//! Names that stand twice, and names that are used too early: 20 to 29 but 22.

use super::{Advice, Asked};
use crate::edit::{Edit, Way, remove, replace};
use form::kind;
use std::collections::{BTreeSet, HashMap};
use words::Case;

impl Asked<'_> {
    /// 20, 21, 23, 24, 25, 27, 28, 29: one of two gets another name.
    pub fn repeated(&self) -> Advice {
        let first = self.offence.related.map_or(0, |place| place.node);
        let fresh = self.facts.fresh(self.name());
        let way = match self.offence.code {
            20 | 21 => return self.declared_twice(first, &fresh),
            24 => self.renamed_parameter(&fresh),
            25 => vec![replace(self.less_used(first), &fresh)],
            27..=29 => self.renamed_let(self.node(), &fresh),
            _ => vec![replace(self.node(), &fresh)],
        };
        Advice::new(Case::Plain, vec![way])
    }

    /// 20 and 21: the first declaration does not count, but its type can make an asset known.
    fn declared_twice(&self, first: usize, fresh: &str) -> Advice {
        let tree = self.facts.tree;
        let declared = self.facts.above(first).unwrap_or(first);
        let renamed = vec![replace(first, fresh)];
        let lots = (declared..tree.end(declared)).any(|node| self.facts.is(node, "Q_Asset"));
        if self.offence.code == 20 && lots {
            return Advice::new(Case::Known, vec![renamed]);
        }
        Advice::new(Case::Plain, vec![vec![remove(declared)], renamed])
    }

    /// The one of two parameters whose name nobody uses it by: uses count for the last lot of a name.
    fn less_used(&self, first: usize) -> usize {
        let param = self.facts.above(self.node()).unwrap_or(0);
        if self.facts.is_of_type(param, "Q_Asset") { first } else { self.node() }
    }

    /// The parameter under another name, wherever it is meant: not where a field is changed.
    fn renamed_parameter(&self, fresh: &str) -> Way {
        let (tree, entry) = (self.facts.tree, self.entry());
        let inside = entry..tree.end(entry);
        let changed: Vec<usize> = inside.clone().filter_map(|node| self.facts.changed(node)).collect();
        let meant = inside.filter(|n| tree.kind(*n) == kind::IDENT && self.facts.is(*n, self.name()));
        let meant = meant.filter(|node| !changed.contains(node));
        std::iter::once(self.node()).chain(meant).map(|node| replace(node, fresh)).collect()
    }

    /// A `let` under another name, and what speaks of it below.
    fn renamed_let(&self, one: usize, fresh: &str) -> Way {
        let (tree, entry) = (self.facts.tree, self.entry());
        let below = (tree.end(one)..tree.end(entry))
            .filter(|n| tree.kind(*n) == kind::IDENT && self.facts.is(*n, self.name()));
        std::iter::once(one + 1).chain(below).map(|node| replace(node, fresh)).collect()
    }

    /// 26: used before its `let`.
    pub fn too_early(&self) -> Advice {
        let entry = self.entry();
        let statement = self.facts.statement_of(self.node()).unwrap_or(0);
        let Some(one) = self.its_let() else {
            return Advice::new(Case::Plain, vec![]);
        };
        let taken = self.taken_in(entry, self.name());
        if let Some(taken) = taken {
            let way = self.renamed_let(one, &self.facts.fresh(self.name()));
            return Advice::new(Case::Taken, vec![way]).with("taken", taken);
        }
        match self.needed_lets(one, statement) {
            Some(lets) => {
                let moved = lets.into_iter().map(|node| Edit::Move { node, before: statement });
                Advice::new(Case::Plain, vec![moved.collect()])
            }
            None => Advice::new(Case::Itself, vec![]),
        }
    }

    /// The first `let` of the entry that has the offence's name.
    pub fn its_let(&self) -> Option<usize> {
        self.facts.parts(self.entry(), kind::LET).find(|one| self.facts.is(one + 1, self.name()))
    }

    /// What a `let` of this name would collide with.
    fn taken_in(&self, entry: usize, name: &str) -> Option<&'static str> {
        let parameter = self.facts.parts(entry, kind::PARAM).any(|param| self.facts.is(param + 1, name));
        match (self.facts.field(name), parameter) {
            (Some(_), _) => Some("a state field"),
            (None, true) => Some("a parameter of this entry"),
            (None, false) => None,
        }
    }

    /// The `let` and each `let` that it needs and that does not stand above the statement, from top to
    /// bottom. `None` where they need the statement itself.
    fn needed_lets(&self, one: usize, statement: usize) -> Option<Vec<usize>> {
        let lets = self.first_lets();
        let mut needed = BTreeSet::from([one]);
        let mut open = vec![one];
        while let Some(at) = open.pop() {
            for other in self.lets_in(at, &lets) {
                if other == statement {
                    return None;
                }
                // one that stands below is a fault of its own, which stays as it is
                if statement < other && other < at && needed.insert(other) {
                    open.push(other);
                }
            }
        }
        (one != statement).then(|| needed.into_iter().collect())
    }

    /// The first `let` of each name in the entry.
    fn first_lets(&self) -> HashMap<&[u8], usize> {
        let mut lets = HashMap::new();
        for one in self.facts.parts(self.entry(), kind::LET) {
            lets.entry(self.facts.tree.text(one + 1)).or_insert(one);
        }
        lets
    }

    /// The `let`s whose names stand in a statement.
    fn lets_in(&self, statement: usize, lets: &HashMap<&[u8], usize>) -> Vec<usize> {
        let tree = self.facts.tree;
        let idents = (statement..tree.end(statement)).filter(|node| tree.kind(*node) == kind::IDENT);
        idents.filter_map(|ident| lets.get(tree.text(ident)).copied()).collect()
    }
}
