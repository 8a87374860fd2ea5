//! Fields that are changed and not named in `writes`: 51.

use super::{Advice, Asked};
use crate::edit::{Edit, Way, remove, replace};
use form::kind;
use words::Case;

impl Asked<'_> {
    pub fn not_in_writes(&self) -> Advice {
        if self.goes_with_the_40() {
            return Advice::new(Case::Beside, vec![]);
        }
        let entry = self.entry();
        let names = self.missed(entry);
        let all = self.writes_with(entry, &names, None);
        let way = self.with_writes(entry, &names, None);
        let wrong = self.wrong(entry);
        let clauses = self.facts.parts(entry, kind::WRITES).count();
        let case = match (clauses, wrong.is_empty()) {
            (0, _) => Case::Clause,
            (_, false) => Case::Wrong,
            (_, true) => Case::Plain,
        };
        Advice::new(case, vec![way]).with("writes", all.join(", ")).with("wrong", wrong.join("`, `"))
    }

    /// Whether the 40 on this call, mended, takes this one along.
    fn goes_with_the_40(&self) -> bool {
        let here = |other: &&isonkaypu::Offence| other.code == 40 && other.place.node == self.node();
        let address = self.offences.iter().find(here);
        address.is_some_and(|address| self.of(address).address().case != Case::Assign)
    }

    /// The fields that the report misses in the entry's `writes`, in its order.
    fn missed(&self, entry: usize) -> Vec<String> {
        let inside = entry..self.facts.tree.end(entry);
        let here = self.offences.iter().filter(|o| o.code == 51 && inside.contains(&o.place.node));
        let stays = here.filter(|offence| !self.of(offence).goes_with_the_40());
        stays.filter_map(|offence| offence.name.clone()).collect()
    }

    /// What the entry's `writes` clauses name and is no state field.
    fn wrong(&self, entry: usize) -> Vec<String> {
        let named = self.written(entry).into_iter().map(|name| self.facts.text(name));
        named.filter(|name| self.facts.field(name).is_none()).collect()
    }

    /// The Names in the entry's `writes` clauses.
    fn written(&self, entry: usize) -> Vec<usize> {
        let clauses = self.facts.parts(entry, kind::WRITES);
        clauses.flat_map(|clause| self.facts.tree.children(clause)).collect()
    }

    /// What the entry's `writes` should name: the fields that it names now, and these. A name that is
    /// about to be declared counts as a field.
    pub fn writes_with(&self, entry: usize, names: &[String], declared: Option<&str>) -> Vec<String> {
        let named = self.written(entry).into_iter().map(|name| self.facts.text(name));
        let fields = named.filter(|name| self.facts.field(name).is_some() || declared == Some(name));
        let mut all: Vec<String> = Vec::new();
        for name in fields.chain(names.iter().cloned()) {
            if !all.contains(&name) {
                all.push(name);
            }
        }
        all
    }

    /// The entry with one `writes` clause that names all of these.
    pub fn with_writes(&self, entry: usize, names: &[String], declared: Option<&str>) -> Way {
        let text = format!("writes {}", self.writes_with(entry, names, declared).join(", "));
        let mut clauses = self.facts.parts(entry, kind::WRITES);
        match clauses.next() {
            Some(first) => std::iter::once(replace(first, &text)).chain(clauses.map(remove)).collect(),
            None => vec![Edit::Clause { entry, text }],
        }
    }
}
