//! Document 01, "Linear, entry by entry": codes 60, 61 and 62. Document 02, request E5: what
//! consumes a counted occurrence. Why a row has its code is `why`'s matter, which takes the rows from
//! here.

use crate::kind::*;
use crate::model::asset_inner;
use crate::offence::{Offences, at, related};
use crate::tree::Tree;

/// A tracked asset: its name, the place of its record, and what counts as its use: burn marks, each as
/// the Name of the clause that gives it, and counted occurrences.
pub struct Row<'a> {
    name: &'a [u8],
    pub place: usize,
    pub marks: Vec<usize>,
    pub occurrences: Vec<Occurrence>,
}

/// Request E5, name the call, too: "The finding of a counted occurrence shall answer with both the
/// Ident and the node that consumes it: the Call, or the Assign for a bare value."
#[derive(Clone, Copy, Debug, PartialEq, Eq)]
pub struct Occurrence {
    pub ident: usize,
    pub consumer: usize,
}

pub fn linear(tree: &Tree) -> Offences {
    let mut out = Offences::new();
    for entry in tree.entries() {
        aliases(tree, entry, &mut out);
        uses(&rows(tree, entry), &mut out);
    }
    out
}

/// The tracked assets of an entry in order, with their marks and their occurrences.
pub fn rows<'a>(tree: &Tree<'a>, entry: usize) -> Vec<Row<'a>> {
    let mut rows = tracked(tree, entry);
    burn_marks(tree, entry, &mut rows);
    count(tree, entry, &mut rows);
    rows
}

/// "Tracked, in order: `Q_Asset` parameters (place Name)"
fn asset_parameters(tree: &Tree, entry: usize) -> Vec<usize> {
    let is_asset = |p: &usize| tree.name_text(tree.type_of(*p)) == b"Q_Asset";
    tree.params(entry).into_iter().filter(is_asset).collect()
}

/// "then Lets whose peeled value is a Call with callee Field `split` or Ident `mint` (place Let)"
fn is_tracked_let(tree: &Tree, statement: usize) -> bool {
    if tree.kind(statement) != LET {
        return false;
    }
    let call = tree.peeled(tree.let_value(statement));
    tree.kind(call) == CALL
        && (tree.method(call).is_some_and(|(_, name)| name == b"split")
            || tree.function(call) == Some(b"mint"))
}

fn tracked<'a>(tree: &Tree<'a>, entry: usize) -> Vec<Row<'a>> {
    let params = asset_parameters(tree, entry).into_iter();
    let statements = tree.statements(entry).into_iter();
    let lets = statements.filter(|s| is_tracked_let(tree, *s));
    let row = |declaration, place| Row {
        name: tree.name_text(declaration),
        place,
        marks: Vec::new(),
        occurrences: Vec::new(),
    };
    params.map(|p| row(p, tree.name(p))).chain(lets.map(|s| row(s, s))).collect()
}

/// 60: "a Let whose peeled value is an Ident naming an asset parameter or an earlier tracked Let".
fn aliases(tree: &Tree, entry: usize, out: &mut Offences) {
    let params = asset_parameters(tree, entry);
    let mut assets: Vec<&[u8]> = params.iter().map(|p| tree.name_text(*p)).collect();
    for statement in tree.statements(entry) {
        if tree.kind(statement) != LET {
            continue;
        }
        let value = tree.peeled(tree.let_value(statement));
        if tree.kind(value) == IDENT && assets.contains(&tree.text(value)) {
            out.push(at(60, statement));
        }
        if is_tracked_let(tree, statement) {
            assets.push(tree.name_text(statement));
        }
    }
}

/// "Burn mark: for each parameter of type `Q_Asset` whose first argument is a type named in a
/// Burns clause, one on the first tracked row of its name."
fn burn_marks(tree: &Tree, entry: usize, rows: &mut [Row]) {
    for param in asset_parameters(tree, entry) {
        let name = tree.name_text(param);
        let row = rows.iter_mut().find(|row| row.name == name);
        if let (Some(row), Some(clause)) = (row, burning_clause(tree, entry, param)) {
            row.marks.push(clause);
        }
    }
}

/// Request E3: "the Name of the first Burns clause that gives the mark", where one does.
fn burning_clause(tree: &Tree, entry: usize, param: usize) -> Option<usize> {
    let inner = asset_inner(tree, tree.type_of(param))?;
    let mut clauses = tree.children_of(entry, |k| k == BURNS).into_iter();
    clauses.find(|c| tree.name_text(*c) == inner).map(|c| tree.name(c))
}

/// "Counted occurrences, on the last row of the name"
fn count(tree: &Tree, entry: usize, rows: &mut [Row]) {
    for occurrence in counted_occurrences(tree, entry) {
        let text = tree.text(occurrence.ident);
        if let Some(row) = rows.iter_mut().rev().find(|row| row.name == text) {
            row.occurrences.push(occurrence);
        }
    }
}

/// The counted occurrences of an entry by their Ident's number, those whose name has no row among
/// them: what consumes an Ident does not go by its name.
pub fn counted_occurrences(tree: &Tree, entry: usize) -> Vec<Occurrence> {
    let mut found = Vec::new();
    for statement in tree.statements(entry) {
        found.extend(counted_value(tree, statement));
        for call in tree.within(statement, CALL) {
            found.extend(counted_arguments(tree, call));
        }
    }
    found.sort_by_key(|occurrence| occurrence.ident);
    found
}

/// "an Assign value that is a bare Ident": the Assign consumes it.
fn counted_value(tree: &Tree, statement: usize) -> Option<Occurrence> {
    if tree.kind(statement) != ASSIGN {
        return None;
    }
    let value = tree.assign_value(statement);
    (tree.kind(value) == IDENT).then_some(Occurrence { ident: value, consumer: statement })
}

/// "each argument that peels to an Ident, in every Call except those with callee Field `get`,
/// `contains`, `has`. Calls nested in these still count." The Call whose argument it is consumes it.
fn counted_arguments(tree: &Tree, call: usize) -> Vec<Occurrence> {
    let looking = |name: &[u8]| matches!(name, b"get" | b"contains" | b"has");
    if tree.method(call).is_some_and(|(_, name)| looking(name)) {
        return Vec::new();
    }
    let peeled = tree.arguments(call).map(|a| tree.peeled(a));
    let idents = peeled.filter(|a| tree.kind(*a) == IDENT);
    idents.map(|ident| Occurrence { ident, consumer: call }).collect()
}

/// "After all 60s, rows in order: 61 when marks plus occurrences are 0, 62 when over 1."
fn uses(rows: &[Row], out: &mut Offences) {
    for row in rows {
        match row.marks.len() + row.occurrences.len() {
            0 => out.push(at(61, row.place)),
            1 => {}
            _ => out.push(related(62, row.place, related_use(row))),
        }
    }
}

/// Request E4, a burn is a use: "Related shall be the first counted occurrence when the row has a
/// burn mark, the second when it has none, and 0 if there is no such occurrence." They stand by
/// their Ident's number.
fn related_use(row: &Row) -> usize {
    let which = if row.marks.is_empty() { 1 } else { 0 };
    row.occurrences.get(which).map_or(0, |occurrence| occurrence.ident)
}
