//! Makes an image that shows a mismatch small: subtrees are taken out, expressions and types give
//! way to what they hold, names become short, as long as the mismatch stays.

use form::Tree;
use generate::Node;
use std::time::{Duration, Instant};

/// How long is spent on it: an image of every maximum could take minutes, and what stands by then will do.
const PATIENCE: Duration = Duration::from_secs(2);

/// What a smaller image must still show, and until when one is sought.
struct Search<'a> {
    shows: &'a dyn Fn(&[u8]) -> bool,
    until: Instant,
}

impl Search<'_> {
    fn goes_on(&self) -> bool {
        Instant::now() < self.until
    }

    fn holds(&self, tree: &Node) -> bool {
        let image = tree.image();
        reference::refusal(&image) == 0 && (self.shows)(&image)
    }
}

/// The smallest image that this finds on which `shows` still holds. Bytes that are not admitted
/// are only shortened from their end.
pub fn shrink(image: &[u8], shows: &dyn Fn(&[u8]) -> bool) -> Vec<u8> {
    let Some(tree) = Tree::of(image).filter(|_| reference::refusal(image) == 0) else {
        return shortened(image, shows);
    };
    let mut tree = Node::of(&tree);
    let search = Search { shows, until: Instant::now() + PATIENCE };
    while smaller(&mut tree, &search) {}
    short_names(&mut tree, &search);
    tree.image()
}

fn shortened(image: &[u8], shows: &dyn Fn(&[u8]) -> bool) -> Vec<u8> {
    let mut image = image.to_vec();
    while !image.is_empty() && shows(&image[..image.len() - 1]) {
        image.pop();
    }
    image
}

/// One round over all nodes; true where something could go.
fn smaller(tree: &mut Node, search: &Search) -> bool {
    let mut changed = false;
    let mut place = tree.size();
    while place > 1 && search.goes_on() {
        place -= 1;
        for candidate in candidates(tree, place) {
            if candidate.size() < tree.size() && search.holds(&candidate) {
                *tree = candidate;
                changed = true;
                break;
            }
        }
        place = place.min(tree.size());
    }
    changed
}

/// The tree without the node at `place`, and with each of its children in its stead.
fn candidates(tree: &Node, place: usize) -> Vec<Node> {
    let Some((parent, k)) = parent_of(tree, place) else {
        return Vec::new();
    };
    let mut without = tree.clone();
    let removed = node_at(&mut without, parent).children.remove(k);
    let mut all = vec![without];
    for child in removed.children {
        let mut hoisted = tree.clone();
        node_at(&mut hoisted, parent).children[k] = child;
        all.push(hoisted);
    }
    all
}

/// The number of the node above `place`, and which child of it `place` is.
fn parent_of(tree: &Node, place: usize) -> Option<(usize, usize)> {
    let mut found = None;
    tree.for_each(&mut |i, node| {
        let mut child = i + 1;
        for (k, sub) in node.children.iter().enumerate() {
            if child == place {
                found = Some((i, k));
            }
            child += sub.size();
        }
    });
    found
}

fn node_at(tree: &mut Node, place: usize) -> &mut Node {
    let mut first = 1;
    if place == 0 {
        return tree;
    }
    for child in &mut tree.children {
        let size = child.size();
        if place < first + size {
            return node_at(child, place - first);
        }
        first += size;
    }
    unreachable!("a place is within its tree")
}

/// Renames each name to the first letter that keeps the mismatch, and clears the spans.
fn short_names(tree: &mut Node, search: &Search) {
    let names: Vec<String> = tree.names().iter().map(|n| n.to_string()).collect();
    for old in names.iter().filter(|n| n.len() > 1) {
        for letter in ('a'..='z').take_while(|_| search.goes_on()) {
            let mut renamed = tree.clone();
            rename(&mut renamed, old, &letter.to_string());
            if search.holds(&renamed) {
                *tree = renamed;
                break;
            }
        }
    }
    let mut cleared = tree.clone();
    cleared.for_each_mut(&mut |n| (n.from, n.to) = (0, 0));
    if search.holds(&cleared) {
        *tree = cleared;
    }
}

fn rename(tree: &mut Node, old: &str, new: &str) {
    tree.for_each_mut(&mut |n| {
        if n.text.as_deref() == Some(old) {
            n.text = Some(new.to_string());
        }
    });
}
