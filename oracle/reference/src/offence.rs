//! Document 01, "Offences": what a pass finds, its code, its place and the node that it is related to.

use crate::tree::Tree;

#[derive(Clone, Copy)]
pub struct Offence {
    pub code: u16,
    pub place: usize,
    pub related: usize,
}

/// What a pass finds, in the order of the list.
pub type Offences = Vec<Offence>;

/// An offence whose related word is 0.
pub fn at(code: u16, place: usize) -> Offence {
    related(code, place, 0)
}

pub fn related(code: u16, place: usize, related: usize) -> Offence {
    Offence { code, place, related }
}

/// "the Name or Let of the first earlier same-named declaration": of the declarations, each given
/// by its place and its text, those that were met before, with the first of that text.
pub fn met_before<T: PartialEq>(declarations: &[(usize, T)]) -> Vec<(usize, usize)> {
    let mut out = Vec::new();
    for (k, (place, text)) in declarations.iter().enumerate() {
        let first = declarations[..k].iter().find(|(_, earlier)| earlier == text);
        out.extend(first.map(|(first, _)| (*place, *first)));
    }
    out
}

/// Name nodes as `met_before` takes them.
pub fn with_texts<'a>(tree: &Tree<'a>, names: &[usize]) -> Vec<(usize, &'a [u8])> {
    names.iter().map(|n| (*n, tree.text(*n))).collect()
}
