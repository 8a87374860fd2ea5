//! Answers of the library that do not hold together. It is proved that it gives none; should a wrong
//! library have been linked, nothing is accepted on its word.

use crate::Pass;
use isonkaypu_sys::RECORD;
use std::fmt;

/// Why a report is not to be relied on. A report that has any is never accepted.
#[derive(Clone, Copy, Debug, PartialEq, Eq, Hash)]
#[non_exhaustive]
pub enum Doubt {
    /// The list was refused, with this number: 9 where its buffer was too short.
    List(usize),
    /// The list is said to have this many records, more than its buffer holds.
    Count(usize),
    /// A record of the list (code, place, related, entry) whose code is none, one of whose places is no node, or
    /// whose entry is not the one that its place stands in. It is not among the offences.
    Record([u16; RECORD]),
    /// The verdict of the pass is not the first of its offences in the list.
    Verdict(Pass),
    /// The clauses and uses of a lot cannot be read, or do not go with its offence: with this code, at this node.
    Reasons(u16, usize),
}

impl fmt::Display for Doubt {
    fn fmt(&self, f: &mut fmt::Formatter<'_>) -> fmt::Result {
        match self {
            Doubt::List(number) => write!(f, "the list of offences is refused with {number}"),
            Doubt::Count(count) => write!(f, "the list of offences has no room for {count} records"),
            Doubt::Record([code, place, related, entry]) => {
                write!(f, "the list has a record that nobody can read: {code} {place} {related} {entry}")
            }
            Doubt::Verdict(pass) => write!(f, "the verdict of {} is not what the list says", pass.word()),
            Doubt::Reasons(code, place) => {
                write!(f, "the uses of the lot at node {place} are not what its code {code} says")
            }
        }
    }
}
