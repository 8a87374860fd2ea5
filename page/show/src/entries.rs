//! Faults by the entry that they stand in, since reviewers are assigned by entry, and entries in words.

use crate::region::Region;
use crate::{Fault, Source};
use form::{Tree, kind};
use isonkaypu::Entry;
use std::collections::BTreeMap;

/// The faults of one entry, or those outside of the entries.
#[derive(Clone, Debug, PartialEq)]
#[non_exhaustive]
pub struct Group<'f> {
    /// The entry; nothing for what stands outside of the entries.
    pub entry: Option<&'f Entry>,
    /// Where its faults stand among those that were grouped, in their order.
    pub faults: Vec<usize>,
}

/// The faults grouped by entry, each once: first those outside of the entries, then entry by entry as the contract
/// has them. Entries are told apart by their nodes, as several can have one name.
pub fn by_entry(faults: &[Fault]) -> Vec<Group<'_>> {
    let mut groups: BTreeMap<Option<usize>, Group> = BTreeMap::new();
    for (i, fault) in faults.iter().enumerate() {
        let entry = fault.entry.as_ref();
        let group = groups.entry(entry.map(|entry| entry.place.node));
        group.or_insert(Group { entry, faults: Vec::new() }).faults.push(i);
    }
    groups.into_values().collect()
}

/// Where an entry stands: "line 9", or "node 14" where the source does not show it.
pub fn place(entry: &Entry, source: Option<&Source>) -> String {
    match Region::of(source, entry.place.span) {
        Some(region) => format!("line {}", region.start.0),
        None => format!("node {}", entry.place.node),
    }
}

/// "entry `issue`"; where its name is not its alone, "entry `issue` (line 9)".
pub fn in_words(tree: &Tree, entry: &Entry, source: Option<&Source>) -> String {
    let same = |item: &usize| tree.kind(*item) == kind::ENTRY && tree.text(item + 1) == entry.name.as_bytes();
    match tree.children(0).filter(same).count() {
        0 | 1 => format!("entry `{}`", entry.name),
        _ => format!("entry `{}` ({})", entry.name, place(entry, source)),
    }
}
