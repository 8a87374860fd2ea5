//! What the page shows, put in order: faults by entry, numbered as they stand on the page.

use crate::region::Region;
use crate::{Fault, Source, Subject, by_entry, faults};
use isonkaypu::{Entry, Report};

/// A fault with its number on the page and its places in the source.
pub struct Item {
    pub number: usize,
    pub fault: Fault,
    pub here: Option<Region>,
    /// The places of `fault.others`.
    pub others: Vec<Option<Region>>,
    /// The first one on the page with this code: it has the example.
    pub first: bool,
}

impl Item {
    /// The id of the mark of a related place: `also-2`, and `also-2-1` for one more.
    pub fn other_id(&self, other: usize) -> String {
        let more = if other == 0 { String::new() } else { format!("-{other}") };
        format!("also-{}{more}", self.number)
    }
}

/// The faults of one entry, or of the contract outside of its entries.
pub struct Group {
    pub entry: Option<Entry>,
    pub place: Option<Region>,
    pub items: Vec<Item>,
}

/// A subject, ready to be shown.
pub struct View<'a> {
    pub subject: &'a Subject<'a>,
    pub source: Option<Source<'a>>,
    pub groups: Vec<Group>,
}

impl<'a> View<'a> {
    pub fn of(subject: &'a Subject<'a>) -> View<'a> {
        let source = subject.source().map(Source::of);
        let groups = subject.report().map_or(Vec::new(), |report| groups(report, source.as_ref()));
        View { subject, source, groups }
    }

    pub fn items(&self) -> impl Iterator<Item = &Item> {
        self.groups.iter().flat_map(|group| &group.items)
    }

    pub fn count(&self) -> usize {
        self.items().count()
    }
}

/// The faults by entry, each from top to bottom; faults of one place in the list's order.
fn groups(report: &Report, source: Option<&Source>) -> Vec<Group> {
    let faults = faults(report);
    let (mut number, mut seen) = (0, Vec::new());
    let mut numbered = |fault: &Fault| {
        let first = !seen.contains(&fault.code);
        seen.extend(first.then_some(fault.code));
        number += 1;
        item(number, fault.clone(), first, source)
    };
    let mut groups = Vec::new();
    for group in by_entry(&faults) {
        let mut inside: Vec<&Fault> = group.faults.iter().map(|i| &faults[*i]).collect();
        inside.sort_by_key(|fault| fault.here.node);
        let place = group.entry.and_then(|entry| Region::of(source, entry.place.span));
        let items = inside.into_iter().map(&mut numbered).collect();
        groups.push(Group { entry: group.entry.cloned(), place, items });
    }
    groups
}

fn item(number: usize, fault: Fault, first: bool, source: Option<&Source>) -> Item {
    let others = fault.others.iter().map(|mark| Region::of(source, mark.span)).collect();
    Item { number, here: Region::of(source, fault.here.span), fault, others, first }
}
