//! The tree of an example, in preorder, and its image.

use form::image::{RawNode, layout};
use std::ops::Range;

pub struct Node {
    pub kind: u8,
    pub text: Option<String>,
    pub place: Range<usize>,
    pub children: Vec<Node>,
}

impl Node {
    pub fn image(&self) -> Vec<u8> {
        let mut names = Vec::new();
        self.names(&mut names);
        names.sort_unstable();
        names.dedup();
        let mut nodes = Vec::new();
        self.flatten(&names, &mut nodes);
        layout(&nodes, &names)
    }

    fn names<'a>(&'a self, names: &mut Vec<&'a str>) {
        names.extend(self.text.as_deref());
        for child in &self.children {
            child.names(names);
        }
    }

    fn flatten(&self, names: &[&str], nodes: &mut Vec<RawNode>) {
        let number = |text: &str| names.binary_search(&text).map_or(0, |k| k + 1);
        let at = nodes.len();
        nodes.push(RawNode {
            kind: self.kind,
            zero_byte: 0,
            name: self.text.as_deref().map_or(0, number),
            end: 0,
            zero_word: 0,
            from: self.place.start as u32,
            to: self.place.end as u32,
        });
        for child in &self.children {
            child.flatten(names, nodes);
        }
        nodes[at].end = nodes.len();
    }
}
