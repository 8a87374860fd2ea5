//! Document 01, "Model": state names, declared assets, known assets.

use crate::kind::*;
use crate::tree::Tree;

pub struct Model<'t, 'a> {
    tree: &'t Tree<'a>,
    /// The FieldDecls of all State blocks, in order.
    pub fields: Vec<usize>,
    declared: Vec<&'a [u8]>,
    known: Vec<&'a [u8]>,
}

impl<'t, 'a> Model<'t, 'a> {
    pub fn of(tree: &'t Tree<'a>) -> Model<'t, 'a> {
        let fields = fields(tree);
        let declared: Vec<&[u8]> = tree.items(ASSET).iter().map(|a| tree.name_text(*a)).collect();
        let known = known_assets(tree, &fields, &declared);
        Model { tree, fields, declared, known }
    }

    /// "State names: all fields of all State blocks"
    pub fn is_state(&self, name: &[u8]) -> bool {
        self.fields.iter().any(|f| self.tree.name_text(*f) == name)
    }

    /// "a later one of the same name replaces the earlier one's type"
    pub fn type_of_state(&self, name: &[u8]) -> Option<usize> {
        let named = |f: &&usize| self.tree.name_text(**f) == name;
        let last = self.fields.iter().rev().find(named)?;
        Some(self.tree.type_of(*last))
    }

    /// "Declared assets: Asset items."
    pub fn is_declared_asset(&self, name: &[u8]) -> bool {
        self.declared.contains(&name)
    }

    pub fn is_known_asset(&self, name: &[u8]) -> bool {
        self.known.contains(&name)
    }
}

fn fields(tree: &Tree) -> Vec<usize> {
    let blocks = tree.items(STATE);
    blocks.iter().flat_map(|block| tree.children(*block)).collect()
}

/// "Known assets: those, `QTOV`, and the name of a first argument that is a type, for each type
/// named `Q_Asset` at any level in state fields and entry parameters."
fn known_assets<'a>(tree: &Tree<'a>, fields: &[usize], declared: &[&'a [u8]]) -> Vec<&'a [u8]> {
    let mut known = declared.to_vec();
    known.push(b"QTOV");
    let params = tree.entries().into_iter().flat_map(|e| tree.params(e));
    for declaration in fields.iter().copied().chain(params) {
        let levels = tree.within(tree.type_of(declaration), TYPE);
        known.extend(levels.filter_map(|t| asset_inner(tree, t)));
    }
    known
}

/// The name of the first argument of a `Q_Asset`, where that argument is a type.
pub fn asset_inner<'a>(tree: &Tree<'a>, ty: usize) -> Option<&'a [u8]> {
    let first = tree.children(ty).nth(1)?;
    (tree.name_text(ty) == b"Q_Asset" && tree.kind(first) == TYPE).then(|| tree.name_text(first))
}
