//! Images at the limits of document 01, on both sides, each with the refusal that the page gives
//! it; and the order of the refusals, where an image has two faults. The page's numbers stand here
//! as they stand there, and are not taken from the reference, so that a slip in it shows.

mod names;
mod tree;

use crate::build::*;
use crate::{Node, Parts, ident, name, node, number};
use form::kind;

pub struct Limit {
    pub name: String,
    pub image: Vec<u8>,
    /// 0 where the image is admitted.
    pub refusal: u8,
}

fn limit(name: impl Into<String>, refusal: u8, image: Vec<u8>) -> Limit {
    Limit { name: name.into(), image, refusal }
}

/// All of them.
pub fn limits() -> Vec<Limit> {
    let groups =
        [lengths(), header_words(), counts(), names::all(), tree::all(), two_faults(), long_reports()];
    groups.into_iter().flatten().collect()
}

/// A small contract with something of everything, to be damaged.
fn small() -> Node {
    contract(
        "c",
        vec![
            asset("Lot"),
            state(vec![field_decl("stock", ty_of("Map", vec![number("8"), m_of_n("2", "3")]))]),
            entry("move", vec![param("x", ty("Q_Asset")), does(apply("send", vec![ident("x")]))]),
        ],
    )
}

/// The image of parts that were changed.
fn changed(tree: &Node, change: impl FnOnce(&mut Parts)) -> Vec<u8> {
    let mut parts = tree.parts();
    change(&mut parts);
    parts.image()
}

/// The image with one little-endian word set.
fn with_word(image: &[u8], at: usize, width: usize, value: u32) -> Vec<u8> {
    let mut image = image.to_vec();
    image[at..at + width].copy_from_slice(&value.to_le_bytes()[..width]);
    image
}

fn padded(prefix: &str, k: usize, length: usize) -> String {
    format!("{prefix}{k:0>width$}", width = length - prefix.len())
}

/// A contract whose one entry has a Writes clause of these names, filled up to `nodes` nodes with
/// the first of them.
pub fn of_names(names: &[String], nodes: usize) -> Node {
    let rest = nodes - 5;
    let filled = names.iter().cycle().take(rest.max(names.len()));
    let clause = node(kind::WRITES, filled.map(|n| name(n)).collect());
    contract(&names[0], vec![entry(&names[0], vec![clause])])
}

/// An image that has every maximum: 2,048 nodes, 1,024 names, 16,384 bytes of text.
pub fn largest() -> Vec<u8> {
    largest_tree().image()
}

fn largest_tree() -> Node {
    let names: Vec<String> = (0..1_024).map(|k| padded("n", k, 16)).collect();
    of_names(&names, 2_048)
}

fn with_largest_spans(mut tree: Node) -> Vec<u8> {
    tree.for_each_mut(&mut |n| (n.from, n.to) = (u32::MAX, u32::MAX));
    tree.image()
}

/// An entry that reads a local name before its Let 2,039 times. The name is `deployer`, so that each
/// reading breaks two rules.
fn many_offences() -> Node {
    let read = std::iter::repeat_n(ident("deployer"), 2_039).collect();
    contract("c", vec![entry("e", vec![emit("D", read), local("deployer", int())])])
}

/// Admitted images whose lists and reports are long.
fn long_reports() -> Vec<Limit> {
    vec![
        limit("every maximum at once, the largest span words", 0, with_largest_spans(largest_tree())),
        limit("over 4,000 offences, the largest span words", 0, with_largest_spans(many_offences())),
    ]
}

fn lengths() -> Vec<Limit> {
    let mut longer = largest();
    longer.push(b'x');
    let longer = with_word(&longer, 20, 4, 51_227);
    vec![
        limit("no bytes", 1, vec![]),
        limit("23 bytes", 1, vec![0; 23]),
        limit("24 bytes of 0", 2, vec![0; 24]),
        limit("51,226 bytes, every maximum at once", 0, largest()),
        limit("51,227 bytes", 1, longer),
        limit("51,226 bytes of 0", 2, vec![0; 51_226]),
        limit("51,227 bytes of 0", 1, vec![0; 51_227]),
        limit("70,000 bytes", 1, vec![1; 70_000]),
    ]
}

fn header_words() -> Vec<Limit> {
    let good = small().image();
    let text = small().names().iter().map(|n| n.len()).sum::<usize>();
    let total = good.len() as u32;
    let word = |at, width, value| with_word(&good, at, width, value);
    let mut cut = good.clone();
    cut.truncate(good.len() - text - 1);
    let cut = with_word(&cut, 20, 4, cut.len() as u32);
    vec![
        limit("the small contract", 0, good.clone()),
        limit("version 0", 2, word(0, 2, 0)),
        limit("version 2", 2, word(0, 2, 2)),
        limit("version 257", 2, word(0, 2, 257)),
        limit("header zero 1", 2, word(6, 2, 1)),
        limit("header zero 256", 2, word(6, 2, 256)),
        limit("node offset 25", 4, word(8, 4, 25)),
        limit("node offset too large by 2^24", 4, word(8, 4, 24 + (1 << 24))),
        limit("name offset past its place", 4, word(12, 4, u32::from(good[12]) + 16)),
        limit("text offset past its place", 4, word(16, 4, u32::MAX)),
        limit("total too large", 4, word(20, 4, total + 1)),
        limit("total too small", 4, word(20, 4, total - 1)),
        limit("total too large by 2^16", 4, word(20, 4, total + (1 << 16))),
        limit("the last byte gone", 4, good[..good.len() - 1].to_vec()),
        limit("total below the text offset", 4, cut),
        limit("a byte more, told by total", 5, with_word(&[&good[..], b"z"].concat(), 20, 4, total + 1)),
    ]
}

fn counts() -> Vec<Limit> {
    let names = |count| (0..count).map(|k| padded("n", k, 5)).collect::<Vec<_>>();
    let one = ["n".to_string()];
    let nameless = changed(&small(), |p| {
        p.names.clear();
        p.nodes.iter_mut().for_each(|n| n.name = 0);
    });
    vec![
        limit("2,048 nodes", 0, of_names(&one, 2_048).image()),
        limit("2,049 nodes", 3, of_names(&one, 2_049).image()),
        limit("N is 0", 3, with_word(&small().image(), 2, 2, 0)),
        limit("N is 65,535", 3, with_word(&small().image(), 2, 2, 65_535)),
        limit("1,024 names", 0, of_names(&names(1_024), 1_100).image()),
        limit("1,025 names", 3, of_names(&names(1_025), 1_100).image()),
        limit("M is 0 with N over 0", 6, changed(&small(), |p| p.names.clear())),
        limit("M is 0 and all carry 0", 6, nameless),
    ]
}

fn two_faults() -> Vec<Limit> {
    let good = small().image();
    let both = |first: (usize, u32), second: (usize, u32)| {
        let image = with_word(&good, first.0, 2, first.1);
        with_word(&image, second.0, 2, second.1)
    };
    let names_and_nodes = changed(&small(), |p| {
        p.names.swap(0, 1);
        p.nodes[1].kind = 0;
    });
    let nodes_and_unused = changed(&small(), |p| {
        p.names.push(b"zz".to_vec());
        p.nodes[1].zero_byte = 1;
    });
    vec![
        limit("version before N", 2, both((0, 3), (2, 0))),
        limit("M before an offset", 3, both((4, 1_025), (8, 25))),
        limit("an offset before the text offsets", 4, both((8, 25), (24 + 16 * small().size(), 1))),
        limit("names before nodes", 5, names_and_nodes),
        limit("nodes before unused names", 6, nodes_and_unused),
    ]
}
