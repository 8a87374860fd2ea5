//! The other places that a rule speaks of, beside the uses of a lot. Document 01 lists one for some codes; the
//! others, such as the field that a parameter has the name of, are found in the tree.

use crate::facts::Facts;
use form::kind;
use isonkaypu::Offence;

/// The other places as nodes, from the first to the last.
pub fn others(facts: Facts, offence: &Offence) -> Vec<usize> {
    let related = offence.related.map(|place| place.node);
    let mut all: Vec<usize> = related.into_iter().chain(declared(facts, offence)).collect();
    all.sort_unstable();
    all.dedup();
    all
}

/// The declaration that a name collides with, comes before or does not fit.
fn declared(facts: Facts, offence: &Offence) -> Option<usize> {
    let name = offence.name.as_deref()?;
    let entry = offence.entry.as_ref().map(|entry| entry.place.node);
    let named = |entry: usize, kind: u8| facts.parts(entry, kind).find(|part| facts.is(part + 1, name));
    match offence.code {
        24 | 28 => facts.field(name).map(|field| field + 1),
        26 => named(entry?, kind::LET),
        29 => named(entry?, kind::PARAM).map(|param| param + 1),
        31 => facts.event(name).map(|event| event + 1),
        _ => None,
    }
}
