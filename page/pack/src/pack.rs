//! A contract to an image. The contract is gone through with a stack of its own, part after part in
//! the order of the nodes, and left at the first limit that is passed: no contract, however deep or
//! wide, takes more than an image's worth of steps.

use crate::part::Part;
use crate::texts::{Texts, at_most};
use crate::{Limit, PackError};
use form::image::{MAX_ANCESTORS, MAX_NODES, RawNode, layout};
use quanta_ast::Contract;

/// The image of a contract, with its spans; or the first limit that the contract passes.
pub fn pack(contract: &Contract) -> Result<Vec<u8>, PackError> {
    let mut packer = Packer::default();
    let mut waiting = vec![Waiting { part: Part::Contract(contract), ancestors: 0 }];
    let mut children = Vec::new();
    while let Some(Waiting { part, ancestors }) = waiting.pop() {
        packer.write(part, ancestors).map_err(|limit| PackError::new(limit, part.kind_and_span().1))?;
        part.children(&mut children);
        // the last of a stack comes first
        let below = children.drain(..).rev();
        waiting.extend(below.map(|part| Waiting { part, ancestors: ancestors + 1 }));
    }
    Ok(packer.image())
}

/// A part whose node is still to be written, and how many nodes stand above it.
struct Waiting<'a> {
    part: Part<'a>,
    ancestors: usize,
}

/// What has been written: the nodes, the text of each, those that are not yet ended.
#[derive(Default)]
struct Packer<'a> {
    nodes: Vec<RawNode>,
    carried: Vec<Option<&'a str>>,
    open: Vec<usize>,
    texts: Texts<'a>,
}

impl<'a> Packer<'a> {
    fn write(&mut self, part: Part<'a>, ancestors: usize) -> Result<(), Limit> {
        at_most(MAX_NODES, self.nodes.len() + 1, Limit::Nodes)?;
        at_most(MAX_ANCESTORS, ancestors, Limit::Ancestors)?;
        let (kind, span) = part.kind_and_span();
        let text = part.text();
        if let Some(text) = text {
            self.texts.take(kind, text)?;
        }
        self.end_down_to(ancestors);
        self.open.push(self.nodes.len());
        self.carried.push(text);
        let (from, to) = (span.start, span.end);
        self.nodes.push(RawNode { kind, zero_byte: 0, name: 0, end: 0, zero_word: 0, from, to });
        Ok(())
    }

    /// Ends the open nodes until so many are left: "a node's end is one past its subtree".
    fn end_down_to(&mut self, left: usize) {
        let end = self.nodes.len();
        for open in self.open.drain(left.min(self.open.len())..) {
            if let Some(node) = self.nodes.get_mut(open) {
                node.end = end;
            }
        }
    }

    fn image(mut self) -> Vec<u8> {
        self.end_down_to(0);
        let names = self.texts.names();
        let number = |text: &str| names.binary_search(&text.as_bytes()).map_or(0, |before| before + 1);
        for (node, text) in self.nodes.iter_mut().zip(&self.carried) {
            node.name = text.map_or(0, number);
        }
        layout(&self.nodes, &names)
    }
}
