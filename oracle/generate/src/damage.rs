//! Admitted images with something wrong: every class of byte, truncated, extended, names unsorted,
//! unused or twice, wrong ends, spare bytes that are not zero, wrong kinds, and several at once.
//! Some damage does no harm; what an image is then is for the reference to say.

use crate::Parts;
use crate::rng::Rng;
use form::image::{HEADER, NODE, RawNode};
use form::kind;

/// A damaged copy of an admitted image.
pub fn damaged(rng: &mut Rng, image: &[u8]) -> Vec<u8> {
    let mut image = image.to_vec();
    let where_to = rng.below(5);
    if where_to < 3 {
        let mut parts = Parts::of(&image);
        for _ in 0..how_many(rng) {
            damage_parts(rng, &mut parts);
        }
        image = parts.image();
    }
    if where_to > 1 {
        for _ in 0..how_many(rng) {
            damage_bytes(rng, &mut image);
        }
    }
    image
}

/// Mostly one, since one fault hides another.
fn how_many(rng: &mut Rng) -> usize {
    if rng.one_in(4) { 2 } else { 1 }
}

/// Faults in the tables, under a header that fits them.
fn damage_parts(rng: &mut Rng, parts: &mut Parts) {
    if parts.names.is_empty() || parts.nodes.is_empty() {
        return;
    }
    match rng.below(16) {
        0 => swap_names(rng, parts),
        1 => repeat_name(rng, parts),
        2 | 3 => add_unused_name(rng, parts),
        4 => bad_name(rng, parts),
        5 => drop_node(rng, parts),
        6 => repeat_node(rng, parts),
        7 | 8 => deepen(rng, parts),
        9 => drop_name(rng, parts),
        _ => damage_node(rng, parts),
    }
}

fn swap_names(rng: &mut Rng, parts: &mut Parts) {
    let last = parts.names.len() - 1;
    if last > 0 {
        let k = rng.below(last);
        parts.names.swap(k, k + 1);
    }
}

/// A name that stands twice in the table; both may be used.
fn repeat_name(rng: &mut Rng, parts: &mut Parts) {
    let k = rng.below(parts.names.len());
    let again = parts.names[k].clone();
    insert_name(parts, k, again);
    let users = parts.nodes.iter_mut().filter(|n| n.name == k + 2);
    users.step_by(2).for_each(|n| n.name = k + 1);
}

/// A name at `at`, with the numbers of those above it moved up.
fn insert_name(parts: &mut Parts, at: usize, name: Vec<u8>) {
    parts.names.insert(at, name);
    let moved = parts.nodes.iter_mut().filter(|n| n.name > at);
    moved.for_each(|n| n.name += 1);
}

fn add_unused_name(rng: &mut Rng, parts: &mut Parts) {
    let k = rng.below(parts.names.len());
    let mut name = parts.names[k].clone();
    name.push(b'0');
    if parts.names.get(k + 1) != Some(&name) {
        insert_name(parts, k + 1, name);
    }
}

fn drop_name(rng: &mut Rng, parts: &mut Parts) {
    let k = rng.below(parts.names.len());
    parts.names.remove(k);
}

fn bad_name(rng: &mut Rng, parts: &mut Parts) {
    let k = rng.below(parts.names.len());
    let name = &mut parts.names[k];
    match rng.below(4) {
        0 => name.clear(),
        1 => name.resize(rng.between(120, 140), b'a'),
        2 => {
            // an earlier damage may have left it empty
            if let Some(first) = name.first_mut() {
                *first = rng.bits() as u8;
            }
        }
        _ => name.push(*rng.pick(b"\0-.@[`{/:~\x7f\x80\xff")),
    }
}

/// Takes a node out of the table without mending the ends.
fn drop_node(rng: &mut Rng, parts: &mut Parts) {
    if parts.nodes.len() > 1 {
        let i = rng.below(parts.nodes.len());
        parts.nodes.remove(i);
    }
}

/// Puts a leaf in the table twice, with the ends of its ancestors mended: a child too many.
fn repeat_node(rng: &mut Rng, parts: &mut Parts) {
    let i = rng.below(parts.nodes.len());
    if parts.nodes[i].end != i + 1 {
        return;
    }
    let (kind, name) = (parts.nodes[i].kind, parts.nodes[i].name);
    move_ends(parts, i, 1);
    parts.nodes.insert(i, plain_node(kind, name, i + 1));
}

/// Makes room at `i`: every end past it moves up by `by`.
fn move_ends(parts: &mut Parts, i: usize, by: usize) {
    let moved = parts.nodes.iter_mut().filter(|n| n.end > i);
    moved.for_each(|n| n.end += by);
}

fn plain_node(kind: u8, name: usize, end: usize) -> RawNode {
    RawNode { kind, zero_byte: 0, name, end, zero_word: 0, from: 0, to: 0 }
}

/// Wraps an expression in many levels: mostly too deep, else a harmless change.
fn deepen(rng: &mut Rng, parts: &mut Parts) {
    let start = rng.below(parts.nodes.len());
    let expression = |i: &usize| kind::is_expression(parts.nodes[*i].kind);
    let Some(i) = (start..parts.nodes.len()).find(expression) else {
        return;
    };
    let by = rng.between(50, 70);
    let end = parts.nodes[i].end + by;
    move_ends(parts, i, by);
    let wrapper = *rng.pick(&[kind::CHECKED, kind::UNARY]);
    for k in 0..by {
        parts.nodes.insert(i + k, plain_node(wrapper, 0, end));
    }
}

fn damage_node(rng: &mut Rng, parts: &mut Parts) {
    let (nodes, names) = (parts.nodes.len(), parts.names.len());
    let i = rng.below(nodes);
    let node = &mut parts.nodes[i];
    match rng.below(8) {
        0 | 1 => node.kind = *rng.pick(kind::ALL),
        2 => node.kind = rng.bits() as u8,
        3 => node.zero_byte = 1 << rng.below(8),
        4 => node.zero_word = 1 << rng.below(16),
        5 => node.name = rng.below(names + 2),
        6 => node.end = rng.below(nodes + 2),
        _ => (node.from, node.to) = (rng.bits() as u32, rng.bits() as u32),
    }
}

/// Faults anywhere in the bytes.
fn damage_bytes(rng: &mut Rng, image: &mut Vec<u8>) {
    match rng.below(12) {
        0 => image.truncate(rng.below(image.len() + 1)),
        1 => extend(rng, image),
        2 => *image = (0..rng.below(200)).map(|_| rng.bits() as u8).collect(),
        3 => image.truncate(rng.below(40)),
        4 => image.resize(rng.between(51_220, 51_240), 0),
        5..=7 => set_byte(rng, image, 0, HEADER),
        8 => set_byte(rng, image, HEADER, usize::MAX),
        9 => set_byte(rng, image, HEADER + NODE, usize::MAX),
        10 => extend_told(rng, image),
        _ => set_byte(rng, image, 0, usize::MAX),
    }
}

fn extend(rng: &mut Rng, image: &mut Vec<u8>) {
    let by = rng.between(1, 5);
    image.extend((0..by).map(|_| b'a'));
}

/// A byte more or less, with the total told so.
fn extend_told(rng: &mut Rng, image: &mut Vec<u8>) {
    if rng.one_in(2) {
        extend(rng, image);
    } else {
        image.pop();
    }
    if image.len() >= HEADER {
        let total = (image.len() as u32).to_le_bytes();
        image[20..24].copy_from_slice(&total);
    }
}

/// One byte of a range becomes another value, one near it most often.
fn set_byte(rng: &mut Rng, image: &mut [u8], from: usize, to: usize) {
    let to = to.min(image.len());
    if from >= to {
        return;
    }
    let byte = &mut image[from + rng.below(to - from)];
    *byte = match rng.below(5) {
        0 => byte.wrapping_add(1),
        1 => byte.wrapping_sub(1),
        2 => *byte ^ (1 << rng.below(8)),
        3 => *rng.pick(&[0, 1, 255]),
        _ => rng.bits() as u8,
    };
}

#[cfg(test)]
mod tests {
    use super::*;

    #[test]
    fn a_name_without_bytes_is_damaged_too() {
        for index in 0..40 {
            let mut parts = Parts { names: vec![Vec::new()], nodes: Vec::new() };
            bad_name(&mut Rng::of_image(1, index), &mut parts);
        }
    }
}
