//! Document 01's table of children as functions, so that a contract can be written down much as
//! its source would be.

use crate::{Node, ident, leaf, name, node, number};
use form::kind;

/// A Name, and then more.
fn named(text: &str, rest: Vec<Node>) -> Vec<Node> {
    std::iter::once(name(text)).chain(rest).collect()
}

pub fn contract(text: &str, items: Vec<Node>) -> Node {
    node(kind::CONTRACT, named(text, items))
}

pub fn asset(text: &str) -> Node {
    node(kind::ASSET, named(text, vec![]))
}

pub fn state(fields: Vec<Node>) -> Node {
    node(kind::STATE, fields)
}

pub fn field_decl(text: &str, ty: Node) -> Node {
    node(kind::FIELD_DECL, named(text, vec![ty]))
}

pub fn event(text: &str, params: usize) -> Node {
    let params = (0..params).map(|_| leaf(kind::EVENT_PARAM));
    node(kind::EVENT, named(text, params.collect()))
}

pub fn genesis(statements: Vec<Node>) -> Node {
    node(kind::GENESIS, statements)
}

pub fn invariant(expression: Node) -> Node {
    node(kind::INVARIANT, vec![expression])
}

/// Parameters, clauses and statements, in this order.
pub fn entry(text: &str, parts: Vec<Node>) -> Node {
    node(kind::ENTRY, named(text, parts))
}

pub fn param(text: &str, ty: Node) -> Node {
    node(kind::PARAM, named(text, vec![ty]))
}

pub fn signed(text: &str, ty: Node, signer: Node) -> Node {
    node(kind::PARAM, named(text, vec![ty, signer]))
}

pub fn ty(text: &str) -> Node {
    ty_of(text, vec![])
}

pub fn ty_of(text: &str, arguments: Vec<Node>) -> Node {
    node(kind::TYPE, named(text, arguments))
}

pub fn m_of_n(m: &str, n: &str) -> Node {
    node(kind::M_OF_N, vec![number(m), number(n)])
}

pub fn writes(names: &[&str]) -> Node {
    node(kind::WRITES, names.iter().map(|n| name(n)).collect())
}

/// Conserves, Mints or Burns.
pub fn of_asset(kind: u8, asset: &str) -> Node {
    node(kind, vec![name(asset)])
}

pub fn burns(asset: &str) -> Node {
    of_asset(kind::BURNS, asset)
}

pub fn conserves(asset: &str) -> Node {
    of_asset(kind::CONSERVES, asset)
}

pub fn limits(expression: Node) -> Node {
    node(kind::LIMITS, vec![expression])
}

pub fn guard(expression: Node) -> Node {
    node(kind::GUARD, vec![expression])
}

pub fn local(text: &str, value: Node) -> Node {
    node(kind::LET, named(text, vec![value]))
}

pub fn emit(text: &str, arguments: Vec<Node>) -> Node {
    node(kind::EMIT, named(text, arguments))
}

pub fn assign(target: Node, value: Node) -> Node {
    node(kind::ASSIGN, vec![target, value])
}

pub fn does(expression: Node) -> Node {
    node(kind::STMT_EXPR, vec![expression])
}

pub fn int() -> Node {
    leaf(kind::INT)
}

pub fn caller() -> Node {
    leaf(kind::CALLER)
}

pub fn checked(expression: Node) -> Node {
    node(kind::CHECKED, vec![expression])
}

pub fn wrapping(expression: Node) -> Node {
    node(kind::WRAPPING, vec![expression])
}

pub fn binary(left: Node, right: Node) -> Node {
    node(kind::BINARY, vec![left, right])
}

pub fn field(base: Node, text: &str) -> Node {
    node(kind::FIELD, vec![base, name(text)])
}

pub fn call(callee: Node, arguments: Vec<Node>) -> Node {
    let parts = std::iter::once(callee).chain(arguments);
    node(kind::CALL, parts.collect())
}

/// `function(arguments)`
pub fn apply(function: &str, arguments: Vec<Node>) -> Node {
    call(ident(function), arguments)
}

/// `base.text(arguments)`
pub fn method(base: Node, text: &str, arguments: Vec<Node>) -> Node {
    call(field(base, text), arguments)
}
