//! The contracts that are timed: ward stock in several shapes and sizes, accepted and refused, and
//! contracts on which the search for rule 23 has as much to do as the form allows.

use generate::build::*;
use generate::{Node, ident};
use reference::image::MAX_NODES;

pub struct Timed {
    pub name: &'static str,
    pub tree: Node,
    /// The codes that resolve, access and linear give, 0 where they accept.
    pub codes: [u16; 3],
}

/// The sizes, in nodes, that each shape comes close to without going over.
pub const SIZES: [usize; 4] = [100, 500, 1_000, MAX_NODES];

/// Each shape at one size.
pub fn of_size(nodes: usize) -> Vec<Timed> {
    let entry_of = |k: usize, statements| small_entry(&format!("issue{k}"), statements);
    let many = |nodes| filled(declarations(), nodes, |k| entry_of(k, vec![]));
    let last = 40;
    let mut undeclared = many(nodes - last);
    let write = assign(ident("limit"), int());
    undeclared.children.push(entry_of(9_998, vec![write]));
    let mut used_twice = many(nodes - last);
    let send = does(apply("send", vec![ident("to"), ident("lot")]));
    used_twice.children.push(entry_of(9_999, vec![send]));
    vec![
        Timed { name: "accepted, one entry", codes: [0, 0, 0], tree: one_entry(nodes) },
        Timed { name: "accepted, many entries", codes: [0, 0, 0], tree: many(nodes) },
        Timed { name: "refused, 51 in the last entry", codes: [0, 51, 0], tree: undeclared },
        Timed { name: "refused, 62 in the last entry", codes: [0, 0, 62], tree: used_twice },
    ]
}

/// Entries of one name, by whose types alone rule 23 tells them apart.
pub fn of_one_name() -> Vec<Timed> {
    vec![
        Timed { name: "23: a State, then 510 of `a()`", codes: [23, 0, 0], tree: behind_a_state() },
        Timed { name: "341 of `a(T)`, T differs", codes: [0, 0, 0], tree: each_of_its_type(341) },
        Timed { name: "23: 204 of `a(T)`, then `a()`", codes: [23, 0, 0], tree: behind_other_types() },
    ]
}

/// A State of 1,022 nodes, and behind it 510 entries that are alike.
fn behind_a_state() -> Node {
    let mut fields: Vec<Node> = (0..255).map(|k| field_decl(&format!("f{k}"), ty("u64"))).collect();
    // the block and 255 fields of four nodes are 1,021, so one field has a default
    fields[0].children.push(int());
    let entries = std::iter::repeat_n(without_parameters(), 510);
    contract("c", std::iter::once(state(fields)).chain(entries).collect())
}

fn without_parameters() -> Node {
    entry("a", vec![])
}

/// Entries with one parameter, each of another type.
fn each_of_its_type(entries: usize) -> Node {
    let of_type = |k: usize| entry("a", vec![param("x", ty(&format!("t{k}")))]);
    contract("c", (0..entries).map(of_type).collect())
}

/// As many entries that are alike as fit behind 204 others of their name: the first of their
/// signature stands behind all of those.
fn behind_other_types() -> Node {
    filled(each_of_its_type(204), MAX_NODES, |_| without_parameters())
}

fn declarations() -> Node {
    let fields = vec![
        field_decl("stock", ty_of("Map", vec![ty("Ward"), ty_of("Q_Asset", vec![ty("Lot")])])),
        field_decl("issued", ty("u64")),
        field_decl("limit", ty("u64")),
    ];
    let bound = invariant(binary(ident("issued"), ident("limit")));
    contract("WardStock", vec![asset("Lot"), state(fields), bound])
}

/// The contract with entries more, as long as they fit.
fn filled(mut tree: Node, nodes: usize, entry: impl Fn(usize) -> Node) -> Node {
    let mut size = tree.size();
    for k in 0.. {
        let next = entry(k);
        size += next.size();
        if size > nodes {
            break;
        }
        tree.children.push(next);
    }
    tree
}

/// Takes a lot and sends it on; the statements given come last.
fn small_entry(name: &str, statements: Vec<Node>) -> Node {
    let mut parts = vec![
        param("lot", ty_of("Q_Asset", vec![ty("Lot")])),
        param("to", ty("Q_Address")),
        writes(&["issued"]),
        guard(binary(ident("issued"), ident("limit"))),
        assign(ident("issued"), checked(binary(ident("issued"), int()))),
        does(apply("send", vec![ident("to"), ident("lot")])),
    ];
    parts.extend(statements);
    entry(name, parts)
}

/// One entry whose body splits parts off the stock and sends each on, as long as they fit.
fn one_entry(nodes: usize) -> Node {
    let mut tree = declarations();
    let mut parts = vec![param("to", ty("Q_Address")), writes(&["stock", "issued"])];
    let mut size = tree.size() + entry("issue", parts.clone()).size();
    for k in 0.. {
        let part = format!("part{k}");
        let statements = [
            local(&part, method(ident("stock"), "split", vec![int()])),
            guard(binary(ident("issued"), ident("limit"))),
            does(apply("send", vec![ident("to"), ident(&part)])),
        ];
        size += statements.iter().map(Node::size).sum::<usize>();
        if size > nodes {
            break;
        }
        parts.extend(statements);
    }
    tree.children.push(entry("issue", parts));
    tree
}
