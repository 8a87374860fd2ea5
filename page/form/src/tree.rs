//! The tree of an image, read from its bytes. Bytes that do not hold together give no tree; whether
//! an image is admitted is the proved library's matter.

use crate::image::{Header, RawNode, u16_at};
use crate::kind;
use std::ops::Range;

/// A node: its kind, one past its subtree, the bytes it carries (none for most kinds), its spans.
#[derive(Clone, Copy, Debug, PartialEq, Eq)]
pub struct Node<'a> {
    /// What it is: a number of `kind`.
    pub kind: u8,
    /// One past the last node of its subtree.
    pub end: usize,
    /// The bytes of its name; none where it carries none.
    pub text: &'a [u8],
    /// Its first span word.
    pub from: u32,
    /// Its second span word.
    pub to: u32,
}

/// The nodes in preorder; a place is a position here. Of a number that is no place, `kind` says 0,
/// `end` says where the tree ends, and `text`, `children` and `above` say nothing.
#[derive(Clone, Debug, PartialEq, Eq)]
pub struct Tree<'a> {
    /// Every node, in preorder.
    pub nodes: Vec<Node<'a>>,
}

// What is asked of every node is inlined: the crates above walk over contracts of 2,048 nodes, and ask it again for
// each fault.
impl<'a> Tree<'a> {
    /// The tree of an image, where its header, its nodes' ends and its names hold together. Every
    /// admitted image has one.
    pub fn of(image: &'a [u8]) -> Option<Tree<'a>> {
        let header = Header::of(image)?;
        let node = |i| node_of(image, &header, i);
        let nodes = (0..header.nodes).map(node).collect::<Option<Vec<_>>>()?;
        ends_nest(&nodes).then_some(Tree { nodes })
    }

    /// How many nodes there are.
    pub fn len(&self) -> usize {
        self.nodes.len()
    }

    /// Never: a tree has its contract.
    pub fn is_empty(&self) -> bool {
        self.nodes.is_empty()
    }

    /// The kind of node i.
    #[inline]
    pub fn kind(&self, i: usize) -> u8 {
        self.nodes.get(i).map_or(0, |node| node.kind)
    }

    /// One past the last node of the subtree of node i.
    #[inline]
    pub fn end(&self, i: usize) -> usize {
        self.nodes.get(i).map_or(self.len(), |node| node.end)
    }

    /// The bytes of the name that node i carries.
    #[inline]
    pub fn text(&self, i: usize) -> &'a [u8] {
        self.nodes.get(i).map_or(&[], |node| node.text)
    }

    /// The places of all nodes.
    pub fn all(&self) -> Range<usize> {
        0..self.nodes.len()
    }

    /// The children of node i: "the first child of node i is i+1, the next child begins at the
    /// last one's end".
    pub fn children(&self, i: usize) -> impl Iterator<Item = usize> + '_ {
        let end = self.end(i);
        let within = move |child: usize| (child < end).then_some(child);
        std::iter::successors(i.checked_add(1).and_then(within), move |child| within(self.end(*child)))
    }

    /// The nodes above node i, the nearest first.
    pub fn above(&self, i: usize) -> impl Iterator<Item = usize> + '_ {
        (0..i.min(self.len())).rev().filter(move |above| i < self.end(*above))
    }

    /// The Entry that node i stands in or is.
    pub fn entry_of(&self, i: usize) -> Option<usize> {
        std::iter::once(i).chain(self.above(i)).find(|above| self.kind(*above) == kind::ENTRY)
    }

    /// The most ancestors that a node has.
    pub fn depth(&self) -> usize {
        let mut open = Open::default();
        self.nodes.iter().enumerate().map(|(i, node)| open.enter(i, node.end)).max().unwrap_or(0)
    }
}

/// Node i, where it and its text are there.
fn node_of<'a>(image: &'a [u8], header: &Header, i: usize) -> Option<Node<'a>> {
    let RawNode { kind, name, end, from, to, .. } = RawNode::of(image, i)?;
    Some(Node { kind, end, text: text_of(image, header, name)?, from, to })
}

/// The text of a name number; number 0 has none.
fn text_of<'a>(image: &'a [u8], header: &Header, name: usize) -> Option<&'a [u8]> {
    let Some(before) = name.checked_sub(1) else {
        return Some(&[]);
    };
    let offsets = image.get(header.name_offset..)?;
    let offset = |k: usize| u16_at(offsets, 2 * k).map(usize::from);
    let text = image.get(header.text_offset..)?;
    if name > header.names { None } else { text.get(offset(before)?..offset(name)?) }
}

/// The ends of the nodes above the one that a walk in preorder has come to.
#[derive(Default)]
struct Open {
    ends: Vec<usize>,
}

impl Open {
    /// Comes to node i, which ends at `end`: how many nodes stand above it.
    fn enter(&mut self, i: usize, end: usize) -> usize {
        while self.ends.last().is_some_and(|end| *end <= i) {
            self.ends.pop();
        }
        self.ends.push(end);
        self.ends.len() - 1
    }
}

/// Whether each node ends past itself and within the node above it, and all within node 0.
fn ends_nest(nodes: &[Node]) -> bool {
    let mut open = Open::default();
    let mut nests = |(i, node): (usize, &Node)| {
        let above = open.enter(i, node.end);
        let last = above.checked_sub(1).and_then(|above| open.ends.get(above));
        // node 0 stands below none and ends where the nodes do
        let within = last.map_or(i == 0 && node.end == nodes.len(), |last| node.end <= *last);
        i < node.end && within
    };
    !nodes.is_empty() && nodes.iter().enumerate().all(&mut nests)
}

#[cfg(test)]
mod tests {
    use super::*;
    use crate::image::layout;

    fn raw(kind: u8, name: usize, end: usize) -> RawNode {
        RawNode { kind, zero_byte: 0, name, end, zero_word: 0, from: 7, to: 9 }
    }

    /// Contract c, Entry e, Guard, Ident x.
    fn small() -> Vec<RawNode> {
        let kinds = [kind::CONTRACT, kind::NAME, kind::ENTRY, kind::NAME, kind::GUARD, kind::IDENT];
        let numbers = [(0, 6), (1, 2), (0, 6), (2, 4), (0, 6), (3, 6)];
        kinds.into_iter().zip(numbers).map(|(kind, (name, end))| raw(kind, name, end)).collect()
    }

    const NAMES: [&str; 3] = ["c", "e", "xy"];

    #[test]
    fn a_tree_is_read() {
        let image = layout(&small(), &NAMES);
        let tree = Tree::of(&image).unwrap();
        assert_eq!((tree.len(), tree.is_empty(), tree.all()), (6, false, 0..6));
        assert_eq!(tree.nodes[5], Node { kind: kind::IDENT, end: 6, text: b"xy", from: 7, to: 9 });
        assert_eq!(tree.children(0).collect::<Vec<_>>(), [1, 2]);
        assert_eq!(tree.children(2).collect::<Vec<_>>(), [3, 4]);
        assert_eq!(tree.children(5).count(), 0);
        assert_eq!(tree.above(5).collect::<Vec<_>>(), [4, 2, 0]);
        assert_eq!((tree.entry_of(2), tree.entry_of(5), tree.entry_of(1)), (Some(2), Some(2), None));
        assert_eq!(tree.depth(), 3);
    }

    #[test]
    fn a_number_that_is_no_place_is_answered() {
        let image = layout(&small(), &NAMES);
        let tree = Tree::of(&image).unwrap();
        for i in [6, 7, usize::MAX] {
            assert_eq!((tree.kind(i), tree.end(i), tree.text(i)), (0, 6, &b""[..]));
            assert_eq!((tree.children(i).count(), tree.above(i).count(), tree.entry_of(i)), (0, 0, None));
        }
    }

    #[test]
    fn bytes_that_do_not_hold_together_give_no_tree() {
        let with = |change: fn(&mut Vec<RawNode>)| {
            let mut nodes = small();
            change(&mut nodes);
            layout(&nodes, &NAMES)
        };
        assert!(Tree::of(&with(|_| {})).is_some());
        for broken in [
            with(|nodes| nodes.clear()),
            with(|nodes| nodes[0].end = 5),
            with(|nodes| nodes[0].end = 7),
            with(|nodes| nodes[1].end = 1),
            with(|nodes| nodes[1].end = 0),
            with(|nodes| nodes[2].end = 5),
            with(|nodes| nodes[3].end = 7),
            with(|nodes| nodes[5].end = 65_535),
            with(|nodes| nodes[5].name = 4),
            with(|nodes| nodes[5].name = 65_535),
            Vec::new(),
        ] {
            assert_eq!(Tree::of(&broken), None);
        }
    }

    /// Every byte of a small image takes every value, and every shorter image is tried.
    #[test]
    fn any_bytes_are_answered() {
        let image = layout(&small(), &NAMES);
        for at in 0..image.len() {
            let mut changed = image.clone();
            for byte in 0..=255 {
                changed[at] = byte;
                if let Some(tree) = Tree::of(&changed) {
                    assert!(tree.depth() < tree.len());
                    assert!(tree.all().all(|i| tree.children(i).all(|child| tree.end(child) <= tree.end(i))));
                }
            }
            // the last byte stands in a text that a node has
            assert_eq!(Tree::of(&image[..at]), None);
        }
        assert_eq!(Tree::of(&[255; 70_000]), None);
    }
}
