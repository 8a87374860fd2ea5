//! An offence in words, with the contract's own names: what every form for people is made from.

use crate::advice::Asked;
use crate::blanks::Blanks;
use crate::edit::Way;
use crate::facts::Facts;
use crate::lots::{Lots, clauses};
use crate::others::others;
use crate::uses::{Use, places, uses};
use form::Tree;
use isonkaypu::{Doubt, Entry, Offence, Pass, Report, Span};
use std::borrow::Cow;
use words::Case;

/// A place with what to say of it.
#[derive(Clone, Debug, PartialEq)]
#[non_exhaustive]
pub struct Mark {
    /// The node of the image that stands there.
    pub node: usize,
    /// Where it stands in the source.
    pub span: Span,
    /// What to say of it: "changed here".
    pub label: String,
    /// Whether the list of document 01 has it: an offence's own place, and its related place.
    pub listed: bool,
}

impl Mark {
    /// The mark of a node, which stands where the tree says.
    pub(crate) fn of(tree: &Tree, node: usize, label: String, listed: bool) -> Mark {
        let span =
            tree.nodes.get(node).map_or(Span { start: 0, end: 0 }, |n| Span { start: n.from, end: n.to });
        Mark { node, span, label, listed }
    }
}

/// An offence in words.
#[derive(Clone, Debug, PartialEq)]
#[non_exhaustive]
pub struct Fault {
    /// Document 01's code.
    pub code: u16,
    /// The pass that found it.
    pub pass: Pass,
    /// The code in a few words, without names of the contract.
    pub title: String,
    /// "entry `issue` changes `issued`, which its `writes` clause does not name"
    pub sentence: String,
    /// Where it stands.
    pub here: Mark,
    /// Other places that the rule speaks of, as they stand in the contract: another declaration, other uses.
    pub others: Vec<Mark>,
    /// Every use of a lot that is not used exactly once, in the library's order (61 and 62); nothing for other
    /// codes. `others` has the same places in the order of the text, each once.
    pub reasons: Option<Vec<Use>>,
    /// How to mend it, in one line.
    pub mend: String,
    /// Which case of its code it is: that of `mend`.
    pub case: Case,
    /// The same as `mend` for a program: each way as a list of edits. Empty where only people can follow.
    pub ways: Vec<Way>,
    /// The entry that it stands in; nothing outside of the entries.
    pub entry: Option<Entry>,
}

impl Fault {
    /// The other places for programs: document 01's own first, then those beside it.
    pub fn related(&self) -> impl Iterator<Item = &Mark> {
        let [listed, found] =
            [true, false].map(|listed| self.others.iter().filter(move |o| o.listed == listed));
        listed.chain(found)
    }
}

/// Every offence of a report in words, in the list's order.
pub fn faults(report: &Report) -> Vec<Fault> {
    let Some(tree) = report.tree() else {
        return Vec::new();
    };
    let nothing = words::Entry::default();
    let offences = offences(report, &tree);
    let facts = Facts { tree: &tree, lots: &Lots::of(report.image()) };
    let in_words = |offence: &Offence| {
        let said = words::code(offence.code).unwrap_or(&nothing);
        fault(said, &Asked { facts, offence, offences: &offences })
    };
    offences.iter().map(in_words).collect()
}

/// The list; where there was no room for it, the first offence of each pass.
fn offences<'r>(report: &'r Report, tree: &Tree) -> Cow<'r, [Offence]> {
    if !list_refused(report) {
        return Cow::Borrowed(report.offences());
    }
    Pass::ALL.iter().filter_map(|pass| report.verdict(*pass).offence(tree)).collect()
}

/// "1 fault", "2 faults"
pub fn counted(count: usize) -> String {
    format!("{count} fault{}", if count == 1 { "" } else { "s" })
}

/// Whether there was no room for the list.
pub fn list_refused(report: &Report) -> bool {
    report.doubts().iter().any(|doubt| matches!(doubt, Doubt::List(_) | Doubt::Count(_)))
}

fn fault(said: &words::Entry, asked: &Asked) -> Fault {
    let Asked { facts, offence, .. } = *asked;
    let (tree, node) = (facts.tree, offence.place.node);
    let advice = asked.advice();
    let blanks = Blanks { tree, offence, of_case: &advice.blanks };
    let listed = |of: usize| of == node || offence.related.is_some_and(|related| related.node == of);
    let mark = |of: usize, label: &str| Mark::of(tree, of, blanks.fill(label), listed(of));
    let reasons = offence.reasons.as_ref().map(|reasons| uses(facts, reasons, said, mark));
    let there = || others(facts, offence).into_iter().map(|other| mark(other, &said.there)).collect();
    Fault {
        code: offence.code,
        pass: Pass::of_code(offence.code).unwrap_or(Pass::Resolve),
        title: said.title.clone(),
        sentence: blanks.fill(sentence(said, offence)),
        here: mark(node, &said.here),
        others: reasons.as_deref().map_or_else(there, places),
        reasons,
        mend: blanks.fill(said.mend_for(advice.case)),
        case: advice.case,
        ways: advice.ways,
        entry: offence.entry.clone(),
    }
}

/// The sentence of an offence. Of a lot that is used more than once it says where `burns` is a use: the clauses
/// among its reasons decide that, never whether the list has a related place.
fn sentence<'w>(said: &'w words::Entry, offence: &Offence) -> &'w str {
    match clauses(offence.reasons.as_deref().unwrap_or_default()).count() {
        0 => &said.fault,
        1 => &said.burned,
        _ => &said.twice,
    }
}
