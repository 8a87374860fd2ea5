//! One offence, as the list has it, with the name of the contract that it is about.

use crate::name::name_of;
use crate::{Entry, Reason};
use form::Tree;
use isonkaypu_sys::RECORD;
use quanta_lexer::Span;
use std::fmt;

/// A node of the image and where it stands in the source.
// Of the parser's `Span` no more is asked than the published files ask: it may have no `Eq` and no `Hash`.
#[derive(Clone, Copy, Debug, PartialEq)]
#[non_exhaustive]
pub struct Place {
    /// The node's number in the image's tree.
    pub node: usize,
    /// Its two span words, document 01's `from` and `to`, as the parser's own span. Nobody judges them:
    /// they may lie outside of the source, or the other way round.
    pub span: Span,
}

impl Place {
    /// The place of a node, where the tree has it.
    pub(crate) fn of(tree: &Tree, node: usize) -> Option<Place> {
        tree.nodes.get(node).map(|found| Place { node, span: Span { start: found.from, end: found.to } })
    }
}

/// An offence against one of document 01's rules.
#[derive(Clone, Debug, PartialEq)]
#[non_exhaustive]
pub struct Offence {
    /// Document 01's code, 20 to 62.
    pub code: u16,
    /// Where it stands.
    pub place: Place,
    /// The name in the contract that it is about, where there is one: of a Name or an Ident its own
    /// text, of a Let or an Emit its name, of an Assign the name that is assigned to, of a Call the
    /// function or method, and for 51 the name whose method it is.
    pub name: Option<String>,
    /// The other place that the rule speaks of: the first declaration of a name that is declared
    /// again, the second use of a lot. With a `burns` clause, which is the earlier use, that is the first
    /// one in the statements, else the second there; where `burns` alone uses it twice there is none.
    pub related: Option<Place>,
    /// The entry that it stands in; nothing outside of the entries: in state fields, events, genesis, invariants.
    pub entry: Option<Entry>,
    /// Why a lot is refused, for 61 and 62: every clause and every use that counts for it, in the order of
    /// `Lot::reasons`. 61 has none of them, 62 two or more. `None` for all other codes, and where the library's
    /// answer was in doubt.
    pub reasons: Option<Vec<Reason>>,
}

impl Offence {
    /// The offence of a record (code, place, related, entry), where its code is one, its places are nodes, and its
    /// entry is that of its place. Its reasons are another answer of the library's.
    pub(crate) fn of(tree: &Tree, [code, place, related, entry]: [u16; RECORD]) -> Option<Offence> {
        crate::Pass::of_code(code)?;
        let place = Place::of(tree, usize::from(place))?;
        let related = match related {
            0 => None,
            node => Some(Place::of(tree, usize::from(node))?),
        };
        let entry = Entry::said(tree, place.node, entry)?;
        Some(Offence { code, place, name: name_of(tree, code, place.node), related, entry, reasons: None })
    }
}

/// The codes of a lot that is not used exactly once: these have reasons.
pub fn counts_uses(code: u16) -> bool {
    matches!(code, 61 | 62)
}

/// The code, the name and the span: enough to find it. What it means is said by `words`.
impl fmt::Display for Offence {
    fn fmt(&self, f: &mut fmt::Formatter<'_>) -> fmt::Result {
        let Span { start, end } = self.place.span;
        write!(f, "[{}]", self.code)?;
        if let Some(name) = &self.name {
            write!(f, " `{name}`")?;
        }
        write!(f, " at bytes {start} to {end}")
    }
}
