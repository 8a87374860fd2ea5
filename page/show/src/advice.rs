//! Which case of its code an offence is in, what that case's blanks stand for, and the ways to mend it
//! that a program can follow. Nothing else decides what a report advises.

mod assets;
mod called;
mod deployer;
mod events;
mod fields;
mod lots;
mod repeated;
mod written;

use crate::edit::Way;
use crate::facts::Facts;
use isonkaypu::Offence;
use words::Case;

/// An offence with all that stands in its report.
pub struct Asked<'a> {
    pub facts: Facts<'a>,
    pub offence: &'a Offence,
    pub offences: &'a [Offence],
}

/// How to mend an offence.
pub struct Advice {
    pub case: Case,
    /// What the blanks of this case stand for.
    pub blanks: Vec<(&'static str, String)>,
    /// The ways that the sentence speaks of, as far as a program can follow them.
    pub ways: Vec<Way>,
}

impl Advice {
    fn new(case: Case, ways: Vec<Way>) -> Advice {
        Advice { case, blanks: Vec::new(), ways }
    }

    fn with(mut self, blank: &'static str, value: impl Into<String>) -> Advice {
        self.blanks.push((blank, value.into()));
        self
    }
}

impl Asked<'_> {
    pub fn advice(&self) -> Advice {
        match self.offence.code {
            20 | 21 | 23 | 24 | 25 | 27 | 28 | 29 => self.repeated(),
            22 => self.two_assets(),
            26 => self.too_early(),
            30 => self.undeclared_event(),
            31 => self.unlike_event(),
            32 => self.deployer(),
            33 | 35 | 36 | 50 => self.no_field(),
            34 => self.no_function(),
            37..=39 => self.no_asset(),
            40 => self.address(),
            51 => self.not_in_writes(),
            60 => self.second_name(),
            61 => self.never_used(),
            62 => self.used_twice(),
            _ => Advice::new(Case::Plain, vec![]),
        }
    }

    fn node(&self) -> usize {
        self.offence.place.node
    }

    fn name(&self) -> &str {
        self.offence.name.as_deref().unwrap_or_default()
    }

    /// The entry that the offence stands in; node 0 where it stands in none.
    fn entry(&self) -> usize {
        self.offence.entry.as_ref().map_or(0, |entry| entry.place.node)
    }

    /// Whether an offence of this code stands at the same place.
    fn beside(&self, code: u16) -> bool {
        self.offences.iter().any(|other| other.code == code && other.place.node == self.node())
    }

    /// The same question for another offence of the report.
    fn of<'b>(&'b self, offence: &'b Offence) -> Asked<'b> {
        Asked { facts: self.facts, offence, offences: self.offences }
    }
}
