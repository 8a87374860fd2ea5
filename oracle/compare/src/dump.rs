//! An image for a reader: its tree, a node a line, or what can be said of bytes that hold none.

use reference::image::HEADER;
use reference::kind;
use reference::tree::Tree;
use std::fmt::Write;

pub fn dump(image: &[u8]) -> String {
    match reference::admit(image) {
        Ok(tree) => tree_lines(&tree),
        Err(refusal) => byte_lines(image, refusal),
    }
}

fn tree_lines(tree: &Tree) -> String {
    let mut out = String::new();
    let mut open_ends: Vec<usize> = Vec::new();
    for i in tree.all() {
        open_ends.retain(|end| *end > i);
        let indent = "  ".repeat(open_ends.len());
        let text = String::from_utf8_lossy(tree.text(i));
        let (word, node) = (kind::word(tree.kind(i)), &tree.nodes[i]);
        let spans = format!("[{} {}]", node.from, node.to);
        writeln!(out, "{i:>5} {indent}{word} {text} {spans}").expect("a String takes any text");
        open_ends.push(tree.end(i));
    }
    out
}

/// The header and the first bytes in hex, 16 in a line.
fn byte_lines(image: &[u8], refusal: u8) -> String {
    let mut out = format!("{} bytes, refusal {refusal} by the reference\n", image.len());
    let shown = &image[..image.len().min(HEADER + 16 * 64)];
    let (header, rest) = shown.split_at(shown.len().min(HEADER));
    for line in std::iter::once(header).chain(rest.chunks(16)) {
        let hex: Vec<String> = line.iter().map(|b| format!("{b:02x}")).collect();
        writeln!(out, "    {}", hex.join(" ")).expect("a String takes any text");
    }
    out
}
