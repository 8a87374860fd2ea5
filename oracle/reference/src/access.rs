//! Document 01, "Access": codes 50 and 51.

use crate::kind::*;
use crate::model::Model;
use crate::offence::{Offences, at};
use crate::tree::Tree;

/// "Field `merge`, `split`, `credit`, `debit`, `insert`, `remove`, `set`"
const WRITING: [&[u8]; 7] = [b"merge", b"split", b"credit", b"debit", b"insert", b"remove", b"set"];

pub fn access(tree: &Tree, model: &Model) -> Offences {
    let mut out = Offences::new();
    for invariant in tree.items(INVARIANT) {
        invariant_idents(tree, model, invariant, &mut out);
    }
    for entry in tree.entries() {
        let declared = declared_writes(tree, entry);
        for statement in tree.statements(entry) {
            undeclared_writes(tree, model, &declared, statement, &mut out);
        }
    }
    out
}

/// 50: Invariant Idents that are no state name.
fn invariant_idents(tree: &Tree, model: &Model, invariant: usize, out: &mut Offences) {
    let idents = tree.within(invariant, IDENT);
    let not_state = idents.filter(|i| !model.is_state(tree.text(*i)));
    out.extend(not_state.map(|i| at(50, i)));
}

/// What the Writes clauses of the entry have.
fn declared_writes<'a>(tree: &Tree<'a>, entry: usize) -> Vec<&'a [u8]> {
    let writes = tree.children_of(entry, |k| k == WRITES);
    let names = writes.iter().flat_map(|w| tree.children(*w));
    names.map(|n| tree.text(n)).collect()
}

/// 51: "a state name written that no Writes clause of the entry has: the root of an Assign target
/// (Assign), then the base root of each Call whose callee is Field … (Call)".
fn undeclared_writes(tree: &Tree, model: &Model, declared: &[&[u8]], statement: usize, out: &mut Offences) {
    let undeclared = |root: Option<usize>| {
        root.map(|r| tree.text(r)).is_some_and(|text| model.is_state(text) && !declared.contains(&text))
    };
    if tree.kind(statement) == ASSIGN && undeclared(tree.access_root(tree.assign_target(statement))) {
        out.push(at(51, statement));
    }
    for call in tree.within(statement, CALL) {
        let writing = tree.method(call).filter(|(_, name)| WRITING.contains(name));
        if undeclared(writing.and_then(|(base, _)| tree.access_root(base))) {
            out.push(at(51, call));
        }
    }
}
