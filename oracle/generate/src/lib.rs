//! Images to compare by, all from a seed: admitted ones (`admitted`), those in which lots share names
//! and clauses (`crowded`), the limits of document 01 on both sides (`limits`), damaged ones
//! (`damaged`), and contracts written by hand with what the page says of them (`patterns`). What an
//! image does not carry is put into a contract by `fill`.

pub mod build;
pub mod patterns;
pub mod words;

mod body;
mod crowd;
mod damage;
mod expression;
mod fill;
mod limits;
mod maker;
mod node;
mod parts;
mod rng;
mod samples;
mod taste;
mod wild;

pub use damage::damaged;
pub use fill::fill;
pub use limits::{Limit, largest, limits, of_names};
pub use node::{Node, ident, leaf, name, node, number};
pub use parts::Parts;
pub use rng::Rng;
pub use samples::ward;
pub use taste::CODES;

use form::image::{MAX_ANCESTORS, MAX_NAMES, MAX_NODES, MAX_TEXT};
use maker::Maker;
use wild::Wild;

/// An image that is admitted.
pub fn admitted(rng: &mut Rng) -> Vec<u8> {
    tree(rng).image()
}

/// The tree of such an image.
pub fn tree(rng: &mut Rng) -> Node {
    let contract = contract(rng);
    finished(contract, rng)
}

/// An image that is admitted, and whose entries have lots that share names, and several Burns clauses.
pub fn crowded(rng: &mut Rng) -> Vec<u8> {
    let mut contract = contract(rng);
    crowd::crowd(rng, &mut contract);
    finished(contract, rng).image()
}

fn contract(rng: &mut Rng) -> Node {
    if rng.one_in(8) { Wild::new(rng).contract() } else { Maker::new(rng).contract() }
}

/// A contract that the form can hold, with span words.
fn finished(mut tree: Node, rng: &mut Rng) -> Node {
    fit(&mut tree);
    let (from, to) = (rng.bits() as u32, rng.bits() as u32);
    let mut next = 0u32;
    tree.for_each_mut(&mut |n| {
        (n.from, n.to) = (from.wrapping_mul(next), to.wrapping_add(next));
        next += 1;
    });
    tree
}

/// Takes items away until the form can hold the rest.
fn fit(tree: &mut Node) {
    // an item's deepest node has one ancestor more than the item counts
    tree.children.retain(|item| item.depth() < MAX_ANCESTORS);
    while !fits(tree) {
        tree.children.pop();
    }
}

fn fits(tree: &Node) -> bool {
    let size = tree.size();
    if size <= MAX_NAMES && size * 16 <= MAX_TEXT {
        return true;
    }
    let names = tree.names();
    size <= MAX_NODES && names.len() <= MAX_NAMES && names.iter().map(|n| n.len()).sum::<usize>() <= MAX_TEXT
}
