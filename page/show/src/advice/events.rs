//! Events: 30 and 31.

use super::{Advice, Asked};
use crate::edit::{Way, item, remove, replace};
use crate::near::nearest;
use form::kind;
use words::Case;

impl Asked<'_> {
    /// 30: an event that is not declared.
    pub fn undeclared_event(&self) -> Advice {
        let facts = self.facts;
        let given = facts.values(self.node());
        // an event with another number of values would be the next fault
        let events = facts.items(kind::EVENT).map(|event| facts.text(event + 1));
        let fitting = events.filter(|name| facts.event(name).is_some_and(|e| facts.values(e) == given));
        let declared = vec![item(declaration(self.name(), given))];
        let fewest = self.namesakes_of_emit().iter().map(|emit| facts.values(*emit)).min().unwrap_or(given);
        let most = self.namesakes_of_emit().iter().map(|emit| facts.values(*emit)).max().unwrap_or(given);
        let advice = match nearest(self.name(), fitting) {
            _ if fewest < most => Advice::new(Case::Unlike, self.made_alike(fewest).into_iter().collect()),
            Some(near) => {
                let ways = vec![vec![replace(self.node() + 1, &near)], declared];
                Advice::new(Case::Near, ways).with("near", near)
            }
            None => Advice::new(Case::Plain, vec![declared]),
        };
        advice.with("event", in_words(self.name(), given))
    }

    /// The `emit`s of the same event.
    fn namesakes_of_emit(&self) -> Vec<usize> {
        self.facts.emits().filter(|emit| self.facts.is(emit + 1, self.name())).collect()
    }

    /// Every `emit` of the event with as many values as the one that has fewest, and its declaration.
    fn made_alike(&self, fewest: usize) -> Option<Way> {
        let mut way = vec![item(declaration(self.name(), fewest))];
        for emit in self.namesakes_of_emit() {
            let more = self.facts.values(emit) - fewest;
            if more > 0 {
                way.extend(self.without_the_last(emit, more)?);
            }
        }
        Some(way)
    }

    /// 31: an event with another number of values.
    pub fn unlike_event(&self) -> Advice {
        let facts = self.facts;
        let Some(event) = facts.event(self.name()) else {
            return Advice::new(Case::Plain, vec![]);
        };
        let (given, declared) = (facts.values(self.node()), facts.values(event));
        let same = |emit: &usize| facts.is(emit + 1, self.name());
        let fits = facts.emits().filter(same).any(|emit| facts.values(emit) == declared);
        let fewer: Vec<Way> =
            self.without_the_last(self.node(), given.saturating_sub(declared)).into_iter().collect();
        if fits {
            return Advice::new(Case::Fits, fewer);
        }
        let all_alike = facts.emits().filter(same).all(|emit| facts.values(emit) == given);
        let changed = all_alike.then(|| vec![replace(event, &declaration(self.name(), given))]);
        Advice::new(Case::Plain, fewer.into_iter().chain(changed).collect())
    }

    /// The `emit` without its last values, where nothing is called in them.
    fn without_the_last(&self, emit: usize, count: usize) -> Option<Way> {
        let tree = self.facts.tree;
        let values: Vec<usize> = tree.children(emit).skip(1).collect();
        let last = &values[values.len().saturating_sub(count)..];
        let calls = last.iter().any(|v| (*v..tree.end(*v)).any(|node| tree.kind(node) == kind::CALL));
        (count > 0 && !calls).then(|| last.iter().map(|value| remove(*value)).collect())
    }
}

/// The declaration of an event with so many values, as a sentence speaks of it.
fn in_words(name: &str, values: usize) -> String {
    match values {
        0 => format!("`event {name}();`"),
        1 => format!("`event {name}(...);` with 1 value"),
        _ => format!("`event {name}(...);` with {values} values"),
    }
}

/// An event with so many values.
fn declaration(name: &str, values: usize) -> String {
    let values: Vec<String> = (1..=values).map(|n| format!("value_{n}: u64")).collect();
    format!("event {name}({});", values.join(", "))
}
