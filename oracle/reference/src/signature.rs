//! Document 01, rule 23's signature text: "name, `(`, types joined by `,`, `)`; type arguments
//! `<a,b>`, nothing where there are none; 13 as `m of n`".

use crate::kind::*;
use crate::tree::Tree;

pub fn signature(tree: &Tree, entry: usize) -> Vec<u8> {
    let mut text = tree.name_text(entry).to_vec();
    text.push(b'(');
    let types: Vec<usize> = tree.params(entry).iter().map(|p| tree.type_of(*p)).collect();
    joined(tree, &types, &mut text);
    text.push(b')');
    text
}

fn joined(tree: &Tree, types: &[usize], text: &mut Vec<u8>) {
    for (k, ty) in types.iter().enumerate() {
        if k > 0 {
            text.push(b',');
        }
        type_text(tree, *ty, text);
    }
}

/// A type, or an argument of one.
fn type_text(tree: &Tree, ty: usize, text: &mut Vec<u8>) {
    match tree.kind(ty) {
        TYPE => {
            text.extend(tree.name_text(ty));
            let arguments = tree.children_of(ty, is_type_argument);
            if !arguments.is_empty() {
                text.push(b'<');
                joined(tree, &arguments, text);
                text.push(b'>');
            }
        }
        M_OF_N => {
            text.extend(tree.text(ty + 1));
            text.extend(b" of ");
            text.extend(tree.text(ty + 2));
        }
        _ => text.extend(tree.text(ty)),
    }
}
