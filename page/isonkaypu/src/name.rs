//! The name that an offence is about, for those who read a report.

use form::{Tree, kind};

/// The name that stands at the place of an offence, as `Offence` describes it.
pub fn name_of(tree: &Tree, code: u16, place: usize) -> Option<String> {
    let named = match tree.kind(place) {
        kind::NAME | kind::IDENT => place,
        kind::LET | kind::EMIT => first(tree, place)?,
        kind::ASSIGN => root(tree, first(tree, place)?)?,
        kind::CALL => of_call(tree, code, first(tree, place)?)?,
        _ => return None,
    };
    String::from_utf8(tree.text(named).to_vec()).ok().filter(|text| !text.is_empty())
}

fn first(tree: &Tree, i: usize) -> Option<usize> {
    tree.children(i).next()
}

/// The Ident at the bottom of a chain of Field bases, peeled at each step.
fn root(tree: &Tree, mut i: usize) -> Option<usize> {
    while matches!(tree.kind(i), kind::FIELD | kind::CHECKED | kind::WRAPPING) {
        i = first(tree, i)?;
    }
    (tree.kind(i) == kind::IDENT).then_some(i)
}

/// For 51 what the method changes, else the function or method that is called.
fn of_call(tree: &Tree, code: u16, callee: usize) -> Option<usize> {
    match tree.kind(callee) {
        kind::IDENT => Some(callee),
        kind::FIELD => {
            let changed = first(tree, callee).filter(|_| code == 51).and_then(|base| root(tree, base));
            changed.or(tree.children(callee).nth(1))
        }
        _ => None,
    }
}
