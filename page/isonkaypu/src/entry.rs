//! The entry that an offence stands in: reviewers are assigned by entry.

use crate::Place;
use form::Tree;

/// An entry of the contract. Its node says which one it is: several can have one name.
#[derive(Clone, Debug, PartialEq)]
#[non_exhaustive]
pub struct Entry {
    /// The whole entry.
    pub place: Place,
    /// Its name, as the contract has it.
    pub name: String,
}

impl Entry {
    /// The entry that a node stands in, where it stands in one.
    #[must_use]
    pub fn around(tree: &Tree, node: usize) -> Option<Entry> {
        let place = Place::of(tree, tree.entry_of(node)?)?;
        // the first child of an Entry is its Name
        let name = String::from_utf8(tree.text(place.node + 1).to_vec()).ok()?;
        Some(Entry { place, name })
    }

    /// The entry that a record says for its place, 0 for none; nothing where the place does not stand there.
    pub(crate) fn said(tree: &Tree, place: usize, word: u16) -> Option<Option<Entry>> {
        let entry = Entry::around(tree, place);
        let node = entry.as_ref().map_or(0, |entry| entry.place.node);
        (node == usize::from(word)).then_some(entry)
    }
}

#[cfg(test)]
mod tests {
    use super::*;

    /// An invariant, and two entries of one name: the entries are nodes 4 and 10.
    const NAMESAKES: &str = "contract c { invariant y; entry e(x: Q_Asset) { } entry e(x: Q_Asset) { } }";

    #[test]
    fn a_node_stands_in_its_own_entry() {
        let image = example::image(NAMESAKES);
        let tree = Tree::of(&image).unwrap();
        let around = |node| Entry::around(&tree, node).map(|entry| (entry.place.node, entry.name));
        let expected = |entry: usize| (entry > 0).then(|| (entry, "e".to_string()));
        let entries = [0, 0, 0, 0, 4, 4, 4, 4, 4, 4, 10, 10, 10, 10, 10, 10];
        assert_eq!(tree.len(), entries.len());
        for (node, entry) in entries.into_iter().enumerate() {
            assert_eq!(around(node), expected(entry), "{node}");
        }
        assert_eq!(around(tree.len()), None);
        let span = Entry::around(&tree, 13).unwrap().place.span;
        assert_eq!(&NAMESAKES[span.start as usize..span.end as usize], "entry e(x: Q_Asset) { }");
        assert!(span.start > 40);
    }

    /// The other entry of the name, no entry, an entry for what stands in none, its Name, and no node at all.
    #[test]
    fn no_other_word_is_believed() {
        let image = example::image(NAMESAKES);
        let tree = Tree::of(&image).unwrap();
        for (place, right) in [(3, 0), (7, 4), (13, 10)] {
            for word in (0..20).chain([65_535]) {
                assert_eq!(Entry::said(&tree, place, word).is_some(), word == right, "{place} {word}");
            }
        }
    }
}
