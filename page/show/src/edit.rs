//! Advice as data: edits of the contract's text, by the parts of its tree. Nobody applies them but tests
//! and, one day, an editor; the sentences are made from the same choice.

/// One edit. `node`, `entry` and `before` are nodes of the image, `text` is what is written.
#[derive(Clone, Debug, PartialEq, Eq)]
#[non_exhaustive]
#[allow(missing_docs)] // what the fields are is said above, once for all cases
pub enum Edit {
    /// Write this in place of a part.
    Replace { node: usize, text: String },
    /// Take a part out: a declaration, a clause, a statement; one of a list with its comma.
    Remove { node: usize },
    /// Write this before a part.
    Before { node: usize, text: String },
    /// Move a statement before another one.
    Move { node: usize, before: usize },
    /// Add an item to the contract.
    Item { text: String },
    /// Add a clause to an entry.
    Clause { entry: usize, text: String },
    /// Add a statement at the end of an entry.
    Statement { entry: usize, text: String },
}

/// All edits of one way to mend a fault.
pub type Way = Vec<Edit>;

pub fn replace(node: usize, text: &str) -> Edit {
    Edit::Replace { node, text: text.to_string() }
}

pub fn remove(node: usize) -> Edit {
    Edit::Remove { node }
}

pub fn item(text: String) -> Edit {
    Edit::Item { text }
}

pub fn statement(entry: usize, text: String) -> Edit {
    Edit::Statement { entry, text }
}
