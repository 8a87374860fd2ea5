//! Document 01, "Resolve, groups in this order": codes 20 to 40. The functions stand in the order
//! of the page, and so do their records in the list.

use crate::kind::*;
use crate::model::Model;
use crate::offence::{Offence, Offences, at, met_before, related, with_texts};
use crate::signature::signature;
use crate::tree::Tree;

/// "neither Ident `send`, `send_asset`, `mint`, `mint_asset`"
const FUNCTIONS: [&[u8]; 4] = [b"send", b"send_asset", b"mint", b"mint_asset"];

/// "nor Field `get`, `contains`, `split`, `set`, `remove`, `merge`, `insert`, `debit`, `credit`"
const METHODS: [&[u8]; 9] =
    [b"get", b"contains", b"split", b"set", b"remove", b"merge", b"insert", b"debit", b"credit"];

pub fn resolve(tree: &Tree, model: &Model) -> Offences {
    let mut out = Offences::new();
    repeated_fields(tree, model, &mut out);
    repeated_events(tree, &mut out);
    minting_with_several_assets(tree, &mut out);
    repeated_signatures(tree, &mut out);
    for entry in tree.entries() {
        parameters(tree, model, entry, &mut out);
        locals(tree, model, entry, &mut out);
    }
    emits(tree, &mut out);
    deployer(tree, &mut out);
    for genesis in tree.items(GENESIS) {
        genesis_assigns(tree, model, genesis, &mut out);
        unknown_calls(tree, genesis, &mut out);
    }
    for entry in tree.entries() {
        signers(tree, model, entry, &mut out);
        clauses(tree, model, entry, &mut out);
        external_calls(tree, model, entry, &mut out);
        unknown_calls(tree, entry, &mut out);
    }
    out
}

/// 20: field name met before (Name).
fn repeated_fields(tree: &Tree, model: &Model, out: &mut Offences) {
    let names: Vec<usize> = model.fields.iter().map(|f| tree.name(*f)).collect();
    out.extend(repeats(20, tree, &names));
}

/// 21: event name met before (Name).
fn repeated_events(tree: &Tree, out: &mut Offences) {
    let names: Vec<usize> = tree.items(EVENT).iter().map(|e| tree.name(*e)).collect();
    out.extend(repeats(21, tree, &names));
}

/// A record for each Name whose text was met before, with the first of that text.
fn repeats(code: u16, tree: &Tree, names: &[usize]) -> Vec<Offence> {
    let met = met_before(&with_texts(tree, names));
    met.iter().map(|(n, first)| related(code, *n, *first)).collect()
}

/// 22: with over one Asset item, a Call whose callee is Ident `mint_asset`, in Entry and Genesis
/// statements, item order.
fn minting_with_several_assets(tree: &Tree, out: &mut Offences) {
    if tree.items(ASSET).len() <= 1 {
        return;
    }
    for item in tree.children(0) {
        let minting = |call: &usize| tree.function(*call) == Some(b"mint_asset");
        out.extend(calls(tree, item).into_iter().filter(minting).map(|c| at(22, c)));
    }
}

/// "Calls … are sought in statements only": those of an Entry or a Genesis, in preorder.
fn calls(tree: &Tree, item: usize) -> Vec<usize> {
    match tree.kind(item) {
        ENTRY | GENESIS => in_statements(tree, item, CALL),
        _ => Vec::new(),
    }
}

fn in_statements(tree: &Tree, item: usize, kind: u8) -> Vec<usize> {
    let statements = tree.statements(item);
    statements.iter().flat_map(|s| tree.within(*s, kind)).collect()
}

/// 23: entry whose signature text equals an earlier one's (Name).
fn repeated_signatures(tree: &Tree, out: &mut Offences) {
    let signed = |e: usize| (tree.name(e), signature(tree, e));
    let signatures: Vec<_> = tree.entries().into_iter().map(signed).collect();
    let met = met_before(&signatures);
    out.extend(met.iter().map(|(name, first)| related(23, *name, *first)));
}

/// "Each parameter: 24 is a state name, 25 met before in this entry (Name)."
fn parameters(tree: &Tree, model: &Model, entry: usize, out: &mut Offences) {
    let names: Vec<usize> = tree.params(entry).iter().map(|p| tree.name(*p)).collect();
    let repeated = repeats(25, tree, &names);
    for name in names {
        if model.is_state(tree.text(name)) {
            out.push(at(24, name));
        }
        out.extend(repeated.iter().filter(|r| r.place == name));
    }
}

/// "Then each statement": 26 to 29.
fn locals(tree: &Tree, model: &Model, entry: usize, out: &mut Offences) {
    let lets = lets(tree, entry);
    for statement in tree.statements(entry) {
        read_before_let(tree, &lets, statement, out);
        if tree.kind(statement) == LET {
            let_names(tree, model, entry, &lets, statement, out);
        }
    }
}

/// The Lets of a body, each with its name's text.
fn lets<'a>(tree: &Tree<'a>, entry: usize) -> Vec<(usize, &'a [u8])> {
    let statements = tree.statements(entry);
    let lets = statements.into_iter().filter(|s| tree.kind(*s) == LET);
    lets.map(|s| (s, tree.name_text(s))).collect()
}

/// 26: an Ident naming a Let of this body with no such Let in an earlier statement.
fn read_before_let(tree: &Tree, lets: &[(usize, &[u8])], statement: usize, out: &mut Offences) {
    for ident in tree.within(statement, IDENT) {
        let mut named = lets.iter().filter(|(_, text)| *text == tree.text(ident));
        if named.next().is_some_and(|(first, _)| *first >= statement) {
            out.push(at(26, ident));
        }
    }
}

/// "for a Let: 27 name of an earlier Let, 28 state name, 29 parameter name (Let)"
fn let_names(
    tree: &Tree,
    model: &Model,
    entry: usize,
    lets: &[(usize, &[u8])],
    statement: usize,
    out: &mut Offences,
) {
    let text = tree.name_text(statement);
    let first = lets.iter().find(|(_, earlier)| *earlier == text);
    if let Some((first, _)) = first.filter(|(first, _)| *first < statement) {
        out.push(related(27, statement, *first));
    }
    if model.is_state(text) {
        out.push(at(28, statement));
    }
    if tree.params(entry).iter().any(|p| tree.name_text(*p) == text) {
        out.push(at(29, statement));
    }
}

/// "Emits in entries, then genesis: 30 event not declared, else 31 argument count unlike that of
/// the event's last declaration (Emit)."
fn emits(tree: &Tree, out: &mut Offences) {
    let events = tree.items(EVENT);
    for item in tree.entries().into_iter().chain(tree.items(GENESIS)) {
        for emit in in_statements(tree, item, EMIT) {
            let declared = |e: &&usize| tree.name_text(**e) == tree.name_text(emit);
            match events.iter().rev().find(declared) {
                None => out.push(at(30, emit)),
                Some(event) if count(tree, *event) != count(tree, emit) => out.push(at(31, emit)),
                Some(_) => {}
            }
        }
    }
}

/// What stands after the Name: an Event's parameters, an Emit's arguments.
fn count(tree: &Tree, i: usize) -> usize {
    tree.children(i).skip(1).count()
}

/// "`deployer`, code 32, items in order: in an entry, signers (Name), then body Idents, then those
/// of Limits, Denies, After as the clauses stand; in an Invariant, its Idents."
fn deployer(tree: &Tree, out: &mut Offences) {
    for item in tree.children(0) {
        let mut places = Vec::new();
        match tree.kind(item) {
            ENTRY => {
                places.extend(signer_names(tree, item));
                places.extend(in_statements(tree, item, IDENT));
                places.extend(clause_idents(tree, item));
            }
            INVARIANT => places.extend(tree.within(item, IDENT)),
            _ => {}
        }
        places.retain(|p| tree.text(*p) == b"deployer");
        out.extend(places.iter().map(|p| at(32, *p)));
    }
}

fn signer_names(tree: &Tree, entry: usize) -> Vec<usize> {
    tree.params(entry).iter().filter_map(|p| tree.signer(*p)).collect()
}

/// Limits, Denies and After are the only clauses that hold Idents.
fn clause_idents(tree: &Tree, entry: usize) -> Vec<usize> {
    let clauses = tree.clauses(entry);
    clauses.iter().flat_map(|c| tree.within(*c, IDENT)).collect()
}

/// "Each Genesis: 33 Assign that has a root, which is no state name (Assign)"
fn genesis_assigns(tree: &Tree, model: &Model, genesis: usize, out: &mut Offences) {
    for assign in in_statements(tree, genesis, ASSIGN) {
        let root = tree.resolve_root(tree.assign_target(assign));
        if root.is_some_and(|r| !model.is_state(tree.text(r))) {
            out.push(at(33, assign));
        }
    }
}

/// "35 signers not state names"
fn signers(tree: &Tree, model: &Model, entry: usize, out: &mut Offences) {
    let names = signer_names(tree, entry).into_iter();
    let not_state = names.filter(|n| !model.is_state(tree.text(*n)));
    out.extend(not_state.map(|n| at(35, n)));
}

/// "then by clause 36 Writes or Reads name not state, 37 Conserves not known, 38 Mints, 39 Burns
/// not declared (Name)"
fn clauses(tree: &Tree, model: &Model, entry: usize, out: &mut Offences) {
    for clause in tree.clauses(entry) {
        for name in tree.children_of(clause, |k| k == NAME) {
            let text = tree.text(name);
            let offence = match tree.kind(clause) {
                WRITES | READS if !model.is_state(text) => 36,
                CONSERVES if !model.is_known_asset(text) => 37,
                MINTS if !model.is_declared_asset(text) => 38,
                BURNS if !model.is_declared_asset(text) => 39,
                _ => continue,
            };
            out.push(at(offence, name));
        }
    }
}

/// "then 40 each Call whose callee, peeled at each step down Field bases, ends in Caller or in an
/// Ident that is a `Q_Address` state field or parameter of the entry"
fn external_calls(tree: &Tree, model: &Model, entry: usize, out: &mut Offences) {
    for call in calls(tree, entry) {
        let bottom = tree.bottom(tree.callee(call), |n| tree.peeled(n));
        let outward = match tree.kind(bottom) {
            CALLER => true,
            IDENT => is_address(tree, model, entry, tree.text(bottom)),
            _ => false,
        };
        if outward {
            out.push(at(40, call));
        }
    }
}

fn is_address(tree: &Tree, model: &Model, entry: usize, name: &[u8]) -> bool {
    let address = |ty: usize| tree.name_text(ty) == b"Q_Address";
    let param = |p: &usize| tree.name_text(*p) == name && address(tree.type_of(*p));
    model.type_of_state(name).is_some_and(address) || tree.params(entry).iter().any(param)
}

/// "34 each Call whose callee is neither Ident … nor Field …"
fn unknown_calls(tree: &Tree, item: usize, out: &mut Offences) {
    for call in calls(tree, item) {
        let function = tree.function(call).is_some_and(|f| FUNCTIONS.contains(&f));
        let method = tree.method(call).is_some_and(|(_, m)| METHODS.contains(&m));
        if !function && !method {
            out.push(at(34, call));
        }
    }
}
