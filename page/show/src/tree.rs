//! The tree of an image in words: a line for each node, set in by its depth.

use crate::subject::Subject;
use form::{Tree, kind};

/// The tree, or what the refusal says.
pub fn tree(subject: &Subject) -> String {
    match subject.report().and_then(|report| report.tree()) {
        Some(tree) => lines(&tree),
        _ => crate::text(subject),
    }
}

fn lines(tree: &Tree) -> String {
    let width = tree.len().saturating_sub(1).to_string().len();
    let mut ends: Vec<usize> = Vec::new();
    let mut text = String::new();
    for (i, node) in tree.nodes.iter().enumerate() {
        ends.retain(|end| i < *end);
        let carried = String::from_utf8_lossy(node.text);
        let inset = "  ".repeat(ends.len());
        let spaced = if carried.is_empty() { "" } else { " " };
        text += &format!(
            "{i:>width$} {inset}{}{spaced}{carried}  {}..{}\n",
            kind::word(node.kind),
            node.from,
            node.to
        );
        ends.push(node.end);
    }
    text
}
