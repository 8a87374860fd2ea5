//! Follows advice as a program would: the edits of one way, applied to the contract's text.

use form::{Tree, kind};
use show::Edit;

/// The text after the edits. The text is the one that the image was made from.
pub fn followed(text: &str, tree: &Tree, way: &[Edit]) -> String {
    let mut splices: Vec<(usize, usize, String)> =
        way.iter().flat_map(|edit| splices(text, tree, edit)).collect();
    // from the end, so that what stands before keeps its place; of one place the last one given first
    splices.reverse();
    splices.sort_by_key(|(from, _, _)| std::cmp::Reverse(*from));
    let mut text = text.to_string();
    for (from, to, with) in splices {
        text.replace_range(from..to, &with);
    }
    without_the_removed(text)
}

/// Stands where something was taken out.
const REMOVED: char = '\0';

fn splices(text: &str, tree: &Tree, edit: &Edit) -> Vec<(usize, usize, String)> {
    let span = |node: usize| (tree.nodes[node].from as usize, tree.nodes[node].to as usize);
    let removed = |node: usize| (span(node).0, span(node).1, REMOVED.to_string());
    let before = |at: usize, with: &str| (at, at, format!("{with} "));
    match edit {
        Edit::Replace { node, text } => vec![(span(*node).0, span(*node).1, text.clone())],
        Edit::Remove { node } => vec![removed(*node)],
        Edit::Before { node, text } => vec![before(span(*node).0, text)],
        Edit::Move { node, before: place } => {
            let (from, to) = span(*node);
            vec![before(span(*place).0, &text[from..to]), removed(*node)]
        }
        Edit::Item { text } => vec![before(span(0).1 - 1, text)],
        Edit::Statement { entry, text } => vec![before(span(*entry).1 - 1, text)],
        Edit::Clause { entry, text: clause } => {
            let head = tree.children(*entry).filter(|part| !kind::is_statement(tree.kind(*part)));
            let end = head.map(|part| span(part).1).max().expect("a name");
            let brace = text[end..].find('{').expect("a body") + end;
            vec![before(brace, &format!(" {clause}"))]
        }
        other => panic!("nobody follows {other:?}"),
    }
}

/// What was taken out of a list takes its comma along.
fn without_the_removed(mut text: String) -> String {
    while let Some(at) = text.find(REMOVED) {
        let before = text[..at].trim_end();
        let after = text[at + 1..].trim_start();
        text = match (before.strip_suffix(','), after.strip_prefix(',')) {
            (Some(before), _) => format!("{before}{}", &text[at + 1..]),
            (None, Some(after)) => format!("{}{after}", &text[..at]),
            (None, None) => format!("{}{}", &text[..at], &text[at + 1..]),
        };
    }
    text
}
