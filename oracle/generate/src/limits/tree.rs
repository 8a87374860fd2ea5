//! Refusals 6 to 8: the tree, its depth, and names that it does not use.

use super::*;
use crate::leaf;
use form::image::RawNode;

pub fn all() -> Vec<Limit> {
    [depths(), nodes(), kinds(), children(), unused()].into_iter().flatten().collect()
}

/// The image with a name at the end of the table that no node has.
fn with_unused_name(tree: &Node) -> Vec<u8> {
    changed(tree, |p| p.names.push(b"zz".to_vec()))
}

/// A Guard whose last node has `ancestors` ancestors: contract, entry, guard, and then a chain.
fn chain(ancestors: usize, last: Node) -> Node {
    let wrap = |inner, k| match k % 3 {
        0 => checked(inner),
        1 => node(kind::UNARY, vec![inner]),
        _ => wrapping(inner),
    };
    let expression = (0..ancestors - 3).fold(last, wrap);
    contract("c", vec![entry("e", vec![guard(expression)])])
}

fn type_chain(ancestors: usize) -> Node {
    let last = ty_of("T", vec![]);
    // contract, entry, param, then types; the innermost Name is one below the innermost Type
    let wrapped = (0..ancestors - 4).fold(last, |inner, _| ty_of("T", vec![inner]));
    contract("c", vec![entry("e", vec![param("x", wrapped)])])
}

fn depths() -> Vec<Limit> {
    vec![
        limit("64 ancestors", 0, chain(64, int()).image()),
        limit("65 ancestors", 7, chain(65, int()).image()),
        limit("64 ancestors by types", 0, type_chain(64).image()),
        limit("65 ancestors by types", 7, type_chain(65).image()),
        limit("1,200 ancestors", 7, chain(1_200, int()).image()),
        limit("1,200 ancestors and a bad last node", 6, chain(1_200, leaf(29)).image()),
        limit("1,200 ancestors and a last node that is no expression", 6, chain(1_200, name("c")).image()),
        limit("65 ancestors and an unused name", 7, with_unused_name(&chain(65, int()))),
    ]
}

fn nodes() -> Vec<Limit> {
    let node = |i: usize, change: fn(&mut RawNode)| changed(&small(), |p| change(&mut p.nodes[i]));
    vec![
        limit("node 0 is no contract", 6, node(0, |n| n.kind = kind::ENTRY)),
        limit("node 0 ends early", 6, node(0, |n| n.end -= 1)),
        limit("node 0 ends late", 6, node(0, |n| n.end += 1)),
        limit("a contract inside", 6, node(2, |n| n.kind = kind::CONTRACT)),
        limit("an end of 0", 6, node(2, |n| n.end = 0)),
        limit("an end of 65,535", 6, node(2, |n| n.end = 65_535)),
        limit("an end at the node itself", 6, node(1, |n| n.end = 1)),
        limit("an end one early", 6, node(2, |n| n.end -= 1)),
        limit("an end one late", 6, node(2, |n| n.end += 1)),
        limit("a zero byte of 1", 6, node(1, |n| n.zero_byte = 1)),
        limit("a zero word of 256", 6, node(1, |n| n.zero_word = 256)),
        limit("a name number of 0", 6, node(1, |n| n.name = 0)),
        limit("a name number of M + 1", 6, node(1, |n| n.name = 12)),
        limit("a name number of 65,535", 6, node(1, |n| n.name = 65_535)),
        limit("a name number on an Asset", 6, node(2, |n| n.name = 1)),
        limit("spans of any size", 0, node(3, |n| (n.from, n.to) = (u32::MAX, 0))),
    ]
}

/// The last node, an Ident, with other kinds, and with the name of a number.
fn kinds() -> Vec<Limit> {
    let last = small().size() - 1;
    let of_kind = |kind| changed(&small(), |p| p.nodes[last].kind = kind);
    let none = [0, 29, 30, 31, 46, 255].map(|kind| limit(format!("kind {kind}"), 6, of_kind(kind)));
    let number = changed(&small(), |p| p.nodes[last].name = 1);
    none.into_iter().chain([limit("a number text on an Ident", 6, number)]).collect()
}

/// Rows of the table of children with a child too few, too many or of another kind.
fn children() -> Vec<Limit> {
    let bad = [bad_items(), bad_entry_parts(), bad_types(), bad_expressions()];
    bad.into_iter().flatten().map(|(what, tree)| limit(what, 6, tree.image())).collect()
}

fn in_item(item: Node) -> Node {
    contract("c", vec![item])
}

fn in_entry(part: Node) -> Node {
    in_item(entry("e", vec![part]))
}

/// A Name that says nothing.
fn c() -> Node {
    name("c")
}

fn bad_items() -> Vec<(&'static str, Node)> {
    let of = |kind, kids| in_item(node(kind, kids));
    let in_state = |kids| of(kind::STATE, vec![node(kind::FIELD_DECL, kids)]);
    let with_child = node(kind::EVENT_PARAM, vec![c()]);
    vec![
        ("a Contract without Name", node(kind::CONTRACT, vec![asset("c")])),
        ("a Contract with two Names", node(kind::CONTRACT, vec![c(), c()])),
        ("an Asset without Name", of(kind::ASSET, vec![])),
        ("an Asset with two Names", of(kind::ASSET, vec![c(), c()])),
        ("a State with a Name", of(kind::STATE, vec![c()])),
        ("a FieldDecl without Type", in_state(vec![c()])),
        ("a FieldDecl with two defaults", in_state(vec![c(), ty("c"), int(), int()])),
        ("an Event with a Param", of(kind::EVENT, vec![c(), param("c", ty("c"))])),
        ("an event parameter with a Name", of(kind::EVENT, vec![c(), with_child])),
        ("a Genesis with an expression", of(kind::GENESIS, vec![int()])),
        ("an Invariant of nothing", of(kind::INVARIANT, vec![])),
        ("an Invariant of two", of(kind::INVARIANT, vec![int(), int()])),
        ("an Invariant of a statement", of(kind::INVARIANT, vec![guard(int())])),
        ("a clause before a Param", in_item(entry("e", vec![burns("c"), param("c", ty("c"))]))),
        ("a statement before a clause", in_item(entry("e", vec![guard(int()), burns("c")]))),
        ("a statement before a Param", in_item(entry("e", vec![guard(int()), param("c", ty("c"))]))),
        ("an entry in an entry", in_entry(entry("e", vec![]))),
    ]
}

fn bad_types() -> Vec<(&'static str, Node)> {
    let of = |argument| in_entry(param("c", ty_of("c", vec![argument])));
    vec![
        ("a Type with a Name too many", of(c())),
        ("a MofN of one", of(node(kind::M_OF_N, vec![number("1")]))),
        ("a MofN of types", of(node(kind::M_OF_N, vec![ty("c"), ty("c")]))),
        ("a Param with two signers", in_entry(node(kind::PARAM, vec![c(), ty("c"), c(), c()]))),
        ("a Param signed by an Ident", in_entry(signed("c", ty("c"), ident("c")))),
    ]
}

fn bad_entry_parts() -> Vec<(&'static str, Node)> {
    let of = |kind, kids| in_entry(node(kind, kids));
    let duration = || leaf(kind::DURATION);
    vec![
        ("a Writes of an Ident", of(kind::WRITES, vec![ident("c")])),
        ("a Mints of nothing", of(kind::MINTS, vec![])),
        ("a Limits of a Duration", of(kind::LIMITS, vec![duration()])),
        ("an After of nothing", of(kind::AFTER, vec![])),
        ("an After of three", of(kind::AFTER, vec![int(), int(), int()])),
        ("an After from a Duration", of(kind::AFTER, vec![int(), duration()])),
        ("a Let without value", of(kind::LET, vec![c()])),
        ("an Emit without Name", of(kind::EMIT, vec![int()])),
        ("an Assign of one", of(kind::ASSIGN, vec![int()])),
        ("an Assign of three", of(kind::ASSIGN, vec![int(), int(), int()])),
    ]
}

fn bad_expressions() -> Vec<(&'static str, Node)> {
    let of = |kind, kids| in_entry(guard(node(kind, kids)));
    vec![
        ("an Int with a child", of(kind::INT, vec![int()])),
        ("a Unary of two", of(kind::UNARY, vec![int(), int()])),
        ("a Binary of one", of(kind::BINARY, vec![int()])),
        ("a Field without Name", of(kind::FIELD, vec![int()])),
        ("a Field with the Name first", of(kind::FIELD, vec![c(), int()])),
        ("a Call of nothing", of(kind::CALL, vec![])),
        ("a Call with a Name", of(kind::CALL, vec![int(), c()])),
        ("a Checked of nothing", of(kind::CHECKED, vec![])),
    ]
}

fn unused() -> Vec<Limit> {
    let extra = |text: &[u8], at: usize| {
        changed(&small(), |p| {
            p.names.insert(at, text.to_vec());
            // the names above moved up by one
            p.nodes.iter_mut().filter(|n| n.name > at).for_each(|n| n.name += 1);
        })
    };
    let last = small().names().len();
    vec![
        limit("the first name unused", 8, extra(b"0", 0)),
        limit("the last name unused", 8, extra(b"zz", last)),
        limit("a number text unused", 8, extra(b"22", 1)),
        limit("each of 1,024 names used, the last by the last node alone", 0, all_names().image()),
        limit("name 1 of 1,024 unused", 8, but_for(1)),
        limit("name 512 of 1,024 unused", 8, but_for(512)),
        limit("name 1,024 of 1,024 unused", 8, but_for(1_024)),
        limit("name 1,024 used by the first Name alone", 0, moved_to_the_first_name(1_024)),
    ]
}

/// A contract with as many names as there can be and no node to spare.
fn all_names() -> Node {
    of_names(&(0..1_024).map(|k| padded("n", k, 5)).collect::<Vec<_>>(), 1_029)
}

/// The same, but that the nodes with this name number have a neighbour's.
fn but_for(number: usize) -> Vec<u8> {
    let other = if number == 1 { 2 } else { number - 1 };
    changed(&all_names(), |p| p.nodes.iter_mut().filter(|n| n.name == number).for_each(|n| n.name = other))
}

/// The same, but that the contract's Name has this number, and the node that had it has 1.
fn moved_to_the_first_name(number: usize) -> Vec<u8> {
    changed(&all_names(), |p| {
        p.nodes.iter_mut().filter(|n| n.name == number).for_each(|n| n.name = 1);
        p.nodes[1].name = number;
    })
}
