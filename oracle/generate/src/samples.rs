//! A small ward-stock contract as a pharmacy would have it, with three offences: a lot that is
//! sent twice, a field written without being declared, and an event that nobody declares.

use crate::build::*;
use crate::{Node, ident, name, node};
use form::image::RawNode;
use form::kind;

/// What the contract's text is; the spans of the image are byte offsets into it.
pub const WARD: &str = include_str!("../../../samples/ward.quanta");

/// The ward-stock contract. The tree is built by hand; its places are those of the text's own tree,
/// which is the same node for node.
pub fn ward() -> Node {
    let mut tree = contract("WardStock", items());
    let image = example::image(WARD);
    let mut places = (0..).map_while(|i| RawNode::of(&image, i));
    tree.for_each_mut(&mut |node| {
        if let Some(place) = places.next() {
            (node.from, node.to) = (place.from, place.to);
        }
    });
    tree
}

fn items() -> Vec<Node> {
    vec![
        asset("Morphine"),
        state(vec![
            field_decl("pharmacist", ty("Q_Address")),
            field_decl("stock", ty_of("Map", vec![ty("Ward"), ty_of("Q_Asset", vec![ty("Morphine")])])),
            field_decl("issued", ty("u64")),
            field_decl("limit", ty("u64")),
        ]),
        event("Issued", 2),
        genesis(vec![assign(ident("pharmacist"), ident("deployer")), assign(ident("limit"), int())]),
        invariant(binary(ident("issued"), ident("limit"))),
        receive(),
        issue(),
        destroy(),
    ]
}

fn lot() -> Node {
    param("lot", ty_of("Q_Asset", vec![ty("Morphine")]))
}

/// Takes a lot into the stock: all is well.
fn receive() -> Node {
    entry(
        "receive",
        vec![
            lot(),
            param("ward", ty("Ward")),
            writes(&["stock"]),
            conserves("Morphine"),
            does(method(ident("stock"), "insert", vec![ident("ward"), ident("lot")])),
        ],
    )
}

/// Issues a part of the stock: `issued` is written undeclared, and the part is sent twice.
fn issue() -> Node {
    let part = method(method(ident("stock"), "get", vec![ident("ward")]), "split", vec![ident("amount")]);
    entry(
        "issue",
        vec![
            param("ward", ty("Ward")),
            param("to", ty("Q_Address")),
            signed("amount", ty("u64"), name("pharmacist")),
            writes(&["stock"]),
            limits(binary(ident("amount"), ident("limit"))),
            local("part", part),
            assign(ident("issued"), checked(binary(ident("issued"), ident("amount")))),
            does(apply("send", vec![ident("to"), ident("part")])),
            does(apply("send", vec![ident("pharmacist"), ident("part")])),
            emit("Issued", vec![ident("ward"), ident("amount")]),
        ],
    )
}

/// Destroys a lot: the event it tells of is declared nowhere.
fn destroy() -> Node {
    entry(
        "destroy",
        vec![lot(), node(kind::READS, vec![name("limit")]), burns("Morphine"), emit("Destroyed", vec![])],
    )
}

#[cfg(test)]
mod tests {
    use super::{WARD, ward};

    /// The text and the tree that was built by hand say the same.
    #[test]
    fn the_text_is_the_tree() {
        assert_eq!(example::image(WARD), ward().image());
    }
}
