//! Names that should be state fields: 33, 35, 36 and 50.

use super::{Advice, Asked};
use crate::edit::{Edit, Way, item, remove, replace};
use crate::near::nearest;
use form::kind;
use words::Case;

impl Asked<'_> {
    pub fn no_field(&self) -> Advice {
        let advice = match self.special_name() {
            Some(advice) => advice,
            None => self.near_or_declared(),
        };
        advice.with("declare", self.declare_in_words())
    }

    /// `deployer`, and names that something else has.
    fn special_name(&self) -> Option<Advice> {
        let code = self.offence.code;
        let out = || vec![self.taken_out()];
        if self.name() == "deployer" {
            return Some(match code {
                33 | 36 => Advice::new(Case::Deployer, out()),
                _ => Advice::new(Case::Beside, vec![]),
            });
        }
        if code == 33 && self.is_local() {
            return Some(Advice::new(Case::Local, out()));
        }
        let taken = self.taken_by()?;
        let fresh = self.facts.fresh(self.name());
        let ways = if code == 36 { out() } else { vec![self.under_another_name(&fresh)] };
        Some(Advice::new(Case::Taken, ways).with("taken", taken).with("fresh", fresh))
    }

    fn near_or_declared(&self) -> Advice {
        let fields = self.facts.fields().map(|field| self.facts.text(field + 1));
        let near = nearest(self.name(), fields);
        let mut ways: Vec<Way> = near.iter().map(|near| vec![replace(self.named(), near)]).collect();
        let clause = self.offence.code == 36;
        if !clause || near.is_none() {
            ways.push(self.declare());
        }
        ways.extend(clause.then(|| self.taken_out()));
        match near {
            Some(near) => Advice::new(Case::Near, ways).with("near", near),
            None => Advice::new(Case::Plain, ways),
        }
    }

    /// The node that carries the name: of 33, an Assign, its root.
    fn named(&self) -> usize {
        if self.offence.code == 33 { self.facts.bottom(self.node() + 1) } else { self.node() }
    }

    /// Whether genesis has a `let` of this name.
    fn is_local(&self) -> bool {
        let genesis = self.facts.above(self.node()).unwrap_or(0);
        self.facts.parts(genesis, kind::LET).any(|one| self.facts.is(one + 1, self.name()))
    }

    /// The parameter or `let` that a field of this name would collide with: the entry's own first.
    fn taken_by(&self) -> Option<String> {
        let (facts, own) = (self.facts, self.entry());
        let entries = std::iter::once(own).filter(|own| *own > 0).chain(facts.items(kind::ENTRY));
        let mut taken = entries.filter_map(|entry| Some((entry, facts.named_in(entry, self.name())?)));
        let (entry, part) = taken.next()?;
        let word = if facts.tree.kind(part) == kind::PARAM { "a parameter" } else { "a `let`" };
        Some(format!("{word} of entry `{}`", facts.text(entry + 1)))
    }

    fn under_another_name(&self, fresh: &str) -> Way {
        vec![item(format!("state {{ {fresh}: u64; }}")), replace(self.named(), fresh)]
    }

    /// The assignment out of genesis, or the name out of its clause.
    fn taken_out(&self) -> Way {
        let above = self.facts.above(self.node()).unwrap_or(0);
        let alone = self.facts.tree.children(above).count() == 1;
        let node = if self.offence.code == 36 && alone { above } else { self.node() };
        vec![remove(node)]
    }

    /// A state field of this name, which every entry that changes it writes.
    fn declare(&self) -> Way {
        let field = item(format!("state {{ {}: u64; }}", self.name()));
        let writes = self.changers().into_iter().flat_map(|entry| {
            let names = [self.name().to_string()];
            self.with_writes(entry, &names, Some(self.name()))
        });
        std::iter::once(field).chain(writes).collect::<Vec<Edit>>()
    }

    /// The entries that change what has this name, and do not say so in `writes`.
    fn changers(&self) -> Vec<usize> {
        let facts = self.facts;
        let changes = |entry: &usize| {
            let mut changed = facts.body(*entry).filter_map(|node| facts.changed(node));
            changed.any(|name| facts.is(name, self.name()))
        };
        let writes = |entry: &usize| {
            let mut named = facts.parts(*entry, kind::WRITES).flat_map(|clause| facts.tree.children(clause));
            named.any(|name| facts.is(name, self.name()))
        };
        facts.items(kind::ENTRY).filter(changes).filter(|entry| !writes(entry)).collect()
    }

    fn declare_in_words(&self) -> String {
        let and = match self.changers()[..] {
            [] => "",
            _ => " and in `writes` of each entry that changes it",
        };
        format!("declare `{}` in a `state` block{and}", self.name())
    }
}
