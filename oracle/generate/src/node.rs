//! An image's tree while it is being made: nodes that own their children. What is built here is
//! written out in preorder by `parts`.

use crate::parts::Parts;
use form::image::RawNode;
use form::{Tree, kind};

/// A node with its subtree. The mark is for cases written by hand, which name places by it; it is
/// not written out.
#[derive(Clone, Debug, PartialEq)]
pub struct Node {
    pub kind: u8,
    pub text: Option<String>,
    pub from: u32,
    pub to: u32,
    pub children: Vec<Node>,
    pub mark: Option<char>,
}

/// A node that carries no text.
pub fn node(kind: u8, children: Vec<Node>) -> Node {
    Node { kind, text: None, from: 0, to: 0, children, mark: None }
}

pub fn leaf(kind: u8) -> Node {
    node(kind, Vec::new())
}

fn carrier(kind: u8, text: &str) -> Node {
    Node { text: Some(text.to_string()), ..leaf(kind) }
}

/// Kind 23.
pub fn name(text: &str) -> Node {
    carrier(kind::NAME, text)
}

/// Kind 35.
pub fn ident(text: &str) -> Node {
    carrier(kind::IDENT, text)
}

/// Kind 12.
pub fn number(text: &str) -> Node {
    carrier(kind::INT_OF_TYPE, text)
}

impl Node {
    pub fn marked(mut self, mark: char) -> Node {
        self.mark = Some(mark);
        self
    }

    pub fn spanned(mut self, from: u32, to: u32) -> Node {
        (self.from, self.to) = (from, to);
        self
    }

    /// How many nodes stand in this subtree.
    pub fn size(&self) -> usize {
        1 + self.children.iter().map(Node::size).sum::<usize>()
    }

    /// How many ancestors the deepest node below this one has, counted from here.
    pub fn depth(&self) -> usize {
        self.children.iter().map(|c| 1 + c.depth()).max().unwrap_or(0)
    }

    /// Calls `f` for each node in preorder, with its number.
    pub fn for_each(&self, f: &mut impl FnMut(usize, &Node)) {
        self.walk(&mut 0, f);
    }

    fn walk(&self, next: &mut usize, f: &mut impl FnMut(usize, &Node)) {
        f(*next, self);
        *next += 1;
        for child in &self.children {
            child.walk(next, f);
        }
    }

    /// Calls `f` for each node in preorder, so that it can be changed.
    pub fn for_each_mut(&mut self, f: &mut impl FnMut(&mut Node)) {
        f(self);
        for child in &mut self.children {
            child.for_each_mut(f);
        }
    }

    /// The number of the node that bears the mark.
    pub fn place(&self, mark: char) -> Option<usize> {
        let mut place = None;
        self.for_each(&mut |i, n| {
            if n.mark == Some(mark) {
                place = Some(i);
            }
        });
        place
    }

    /// The names that this tree uses, each once, ascending by bytes.
    pub fn names(&self) -> Vec<&str> {
        let mut names = Vec::new();
        self.collect_names(&mut names);
        names.sort_unstable();
        names.dedup();
        names
    }

    fn collect_names<'a>(&'a self, names: &mut Vec<&'a str>) {
        names.extend(self.text.as_deref());
        for child in &self.children {
            child.collect_names(names);
        }
    }

    /// The parts of this tree's image. Nothing is judged: a tree too large has parts too large.
    pub fn parts(&self) -> Parts {
        let names = self.names();
        let mut nodes = Vec::with_capacity(64);
        self.flatten(&names, &mut nodes);
        Parts { nodes, names: names.iter().map(|n| n.as_bytes().to_vec()).collect() }
    }

    fn flatten(&self, names: &[&str], nodes: &mut Vec<RawNode>) {
        let number = |text: &String| names.binary_search(&text.as_str()).map_or(0, |k| k + 1);
        let place = nodes.len();
        nodes.push(RawNode {
            kind: self.kind,
            zero_byte: 0,
            name: self.text.as_ref().map_or(0, number),
            end: 0,
            zero_word: 0,
            from: self.from,
            to: self.to,
        });
        for child in &self.children {
            child.flatten(names, nodes);
        }
        nodes[place].end = nodes.len();
    }

    /// The image of this tree, unjudged.
    pub fn image(&self) -> Vec<u8> {
        self.parts().image()
    }

    /// The tree of an admitted image, whose texts are ASCII.
    pub fn of(tree: &Tree) -> Node {
        Node::of_subtree(tree, 0)
    }

    fn of_subtree(tree: &Tree, i: usize) -> Node {
        let raw = &tree.nodes[i];
        let text = String::from_utf8_lossy(raw.text).into_owned();
        Node {
            kind: raw.kind,
            text: kind::carries_a_name(raw.kind).then_some(text),
            from: raw.from,
            to: raw.to,
            children: tree.children(i).map(|c| Node::of_subtree(tree, c)).collect(),
            mark: None,
        }
    }
}
