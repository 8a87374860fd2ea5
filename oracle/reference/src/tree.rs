//! The tree of an admitted image as the rules see it, and the words that document 01's section
//! "Offences" opens with: peeled, the two roots, callees.

use crate::kind::*;
use std::ops::Range;

/// A node: its kind, one past its subtree, the bytes it carries (none for most kinds), its spans.
pub struct Node<'a> {
    pub kind: u8,
    pub end: usize,
    pub text: &'a [u8],
    pub from: u32,
    pub to: u32,
}

/// The nodes in preorder; a place is a position here.
pub struct Tree<'a> {
    pub nodes: Vec<Node<'a>>,
}

impl<'a> Tree<'a> {
    pub fn kind(&self, i: usize) -> u8 {
        self.nodes[i].kind
    }

    pub fn end(&self, i: usize) -> usize {
        self.nodes[i].end
    }

    pub fn text(&self, i: usize) -> &'a [u8] {
        self.nodes[i].text
    }

    pub fn all(&self) -> Range<usize> {
        0..self.nodes.len()
    }

    /// The children of node i: "the first child of node i is i+1, the next child begins at the
    /// last one's end".
    pub fn children(&self, i: usize) -> impl Iterator<Item = usize> + '_ {
        let end = self.end(i);
        let within = move |child: usize| (child < end).then_some(child);
        std::iter::successors(within(i + 1), move |child| within(self.end(*child)))
    }

    /// Those children of node i whose kind passes.
    pub fn children_of(&self, i: usize, passes: fn(u8) -> bool) -> Vec<usize> {
        self.children(i).filter(|c| passes(self.kind(*c))).collect()
    }

    /// The nodes of one kind in the subtree of node i, itself among them, in preorder.
    pub fn within(&self, i: usize, kind: u8) -> impl Iterator<Item = usize> + '_ {
        (i..self.end(i)).filter(move |n| self.kind(*n) == kind)
    }

    /// The items of one kind, in order.
    pub fn items(&self, kind: u8) -> Vec<usize> {
        self.children(0).filter(|i| self.kind(*i) == kind).collect()
    }

    pub fn entries(&self) -> Vec<usize> {
        self.items(ENTRY)
    }

    pub fn params(&self, entry: usize) -> Vec<usize> {
        self.children_of(entry, |k| k == PARAM)
    }

    pub fn clauses(&self, entry: usize) -> Vec<usize> {
        self.children_of(entry, is_clause)
    }

    /// The statements of an Entry or a Genesis.
    pub fn statements(&self, item: usize) -> Vec<usize> {
        self.children_of(item, is_statement)
    }

    /// The Name that a declaration, a Type, a Let or an Emit begins with.
    pub fn name(&self, i: usize) -> usize {
        i + 1
    }

    pub fn name_text(&self, i: usize) -> &'a [u8] {
        self.text(self.name(i))
    }

    /// The Type of a FieldDecl or a Param: the child after its Name.
    pub fn type_of(&self, declaration: usize) -> usize {
        self.end(self.name(declaration))
    }

    /// The `signed_by` Name of a Param.
    pub fn signer(&self, param: usize) -> Option<usize> {
        self.children(param).nth(2)
    }

    /// The value of a Let: the child after its Name.
    pub fn let_value(&self, statement: usize) -> usize {
        self.end(self.name(statement))
    }

    pub fn assign_target(&self, statement: usize) -> usize {
        statement + 1
    }

    pub fn assign_value(&self, statement: usize) -> usize {
        self.end(self.assign_target(statement))
    }

    /// "Peeled": Checked and Wrapping taken off the outside.
    pub fn peeled(&self, mut i: usize) -> usize {
        while matches!(self.kind(i), CHECKED | WRAPPING) {
            i += 1;
        }
        i
    }

    /// "A root is the Ident at the bottom of a chain of Field bases; resolve never peels on the
    /// way"
    pub fn resolve_root(&self, i: usize) -> Option<usize> {
        let bottom = self.bottom(i, |n| n);
        (self.kind(bottom) == IDENT).then_some(bottom)
    }

    /// "access peels at each step"
    pub fn access_root(&self, i: usize) -> Option<usize> {
        let bottom = self.bottom(i, |n| self.peeled(n));
        (self.kind(bottom) == IDENT).then_some(bottom)
    }

    /// The end of a chain of Field bases, with `step` taken at each node on the way.
    pub fn bottom(&self, i: usize, step: impl Fn(usize) -> usize) -> usize {
        let mut i = step(i);
        while self.kind(i) == FIELD {
            i = step(i + 1);
        }
        i
    }

    pub fn callee(&self, call: usize) -> usize {
        call + 1
    }

    pub fn arguments(&self, call: usize) -> impl Iterator<Item = usize> + '_ {
        self.children(call).skip(1)
    }

    /// "callee is Ident `…`": the text of an Ident callee, unpeeled.
    pub fn function(&self, call: usize) -> Option<&'a [u8]> {
        let callee = self.callee(call);
        (self.kind(callee) == IDENT).then(|| self.text(callee))
    }

    /// "callee is Field `…`": the base and the text of the Name of a Field callee, unpeeled.
    pub fn method(&self, call: usize) -> Option<(usize, &'a [u8])> {
        let callee = self.callee(call);
        let base = callee + 1;
        (self.kind(callee) == FIELD).then(|| (base, self.text(self.end(base))))
    }
}
