//! Why one lot is refused, or is not, for people at a terminal: how many uses it has, and each with its line.

use super::{Page, banner, line, placed};
use crate::about::made_by;
use crate::entries::in_words;
use crate::facts::Facts;
use crate::fault::{Fault, Mark, faults};
use crate::ink::Ink;
use crate::lots::{Lots, clauses};
use crate::source::Source;
use crate::subject::Subject;
use crate::terminal::safe;
use crate::uses::{places, uses};
use form::Tree;
use isonkaypu::{Entry, Lot, Report};

/// The answer about a lot of the subject's contract, as text: of one that is not used exactly once its fault,
/// else where it is used. Of a subject without a report it is what `text` says.
pub fn why(subject: &Subject, lot: &Lot) -> String {
    written(subject, lot, Ink::Plain)
}

/// The same for a terminal that shows colours.
pub fn why_in_colour(subject: &Subject, lot: &Lot) -> String {
    written(subject, lot, Ink::Coloured)
}

fn written(subject: &Subject, lot: &Lot, ink: Ink) -> String {
    let answered =
        subject.report().and_then(|report| Some(answer(subject, report, &report.tree()?, lot, ink)));
    answered.unwrap_or_else(|| super::written(subject, ink))
}

fn answer(subject: &Subject, report: &Report, tree: &Tree, lot: &Lot, ink: Ink) -> String {
    let source = subject.source().map(Source::of);
    let of_lot = |fault: &Fault| fault.reasons.is_some() && fault.here.node == lot.place.node;
    let body = match faults(report).into_iter().find(of_lot) {
        Some(fault) => {
            let placed = placed(&fault.here, &fault.others, source.as_ref());
            Page::of(subject, source.as_ref(), placed.iter(), ink).fault(&fault, &placed)
        }
        None => {
            let (here, others) = marks(report, tree, lot);
            let placed = placed(&here, &others, source.as_ref());
            Page::of(subject, source.as_ref(), placed.iter(), ink).all(&placed)
        }
    };
    opening(subject, (tree, source.as_ref()), lot, ink)
        + &body
        + "\n"
        + &line(&meaning(lot))
        + &read_more(lot)
        + &made_by()
        + "\n"
}

/// The place of a lot and those of its uses, in the words of 62, which has a label for each.
fn marks(report: &Report, tree: &Tree, lot: &Lot) -> (Mark, Vec<Mark>) {
    let nothing = words::Entry::default();
    let words = words::code(words::USES).unwrap_or(&nothing);
    let facts = Facts { tree, lots: &Lots::of(report.image()) };
    let mark = |node: usize, label: &str| Mark::of(tree, node, label.to_string(), false);
    let uses = uses(facts, &lot.reasons, words, mark);
    (mark(lot.place.node, &words.here), places(&uses))
}

/// "2 USES  ward.quanta: the lot `part` of entry `issue`, node 86"
fn opening(subject: &Subject, (tree, source): (&Tree, Option<&Source>), lot: &Lot, ink: Ink) -> String {
    let count = lot.reasons.len();
    let capitals = counted(count).to_uppercase();
    let inked = if count == 1 { ink.good(&capitals) } else { ink.bad(&capitals) };
    let node = lot.place.node;
    let entry = Entry::around(tree, node).map_or(String::new(), |entry| in_words(tree, &entry, source));
    let which = format!("the lot `{}` of {entry}, node {node}", lot.name.as_deref().unwrap_or_default());
    banner(subject, &format!("{inked}  {}: {which}", safe(subject.label())), ink, || {
        format!("says of {which}: {}", counted(count))
    })
}

fn counted(count: usize) -> String {
    match count {
        0 => "no use".to_string(),
        1 => "1 use".to_string(),
        _ => format!("{count} uses"),
    }
}

/// What the number of uses means.
fn meaning(lot: &Lot) -> String {
    let count = lot.reasons.len();
    let by_clause = match clauses(&lot.reasons).count() {
        0 => String::new(),
        burned => format!(" ({burned} by `burns`)"),
    };
    match count {
        0 => "A lot is used exactly once. This one is never used, so the contract is refused.".to_string(),
        1 => {
            "A lot is used exactly once, and this one is. Whether the contract has other faults is not said \
              here: `isonkaypu check` says it."
                .to_string()
        }
        _ => format!(
            "A lot is used exactly once. This one has {count} uses{by_clause}, so the contract is refused."
        ),
    }
}

fn read_more(lot: &Lot) -> String {
    let code = match lot.reasons.len() {
        0 => "`isonkaypu explain 61`, ",
        1 => "",
        _ => "`isonkaypu explain 62`, ",
    };
    format!("Read more: {code}`isonkaypu explain use`\n")
}
