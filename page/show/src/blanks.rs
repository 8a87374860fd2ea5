//! What the blanks of a sentence stand for: the contract's names, found in the tree from the place of
//! an offence. Nothing here judges; the offence says which rule was broken.

use form::{Tree, kind};
use isonkaypu::Offence;

/// An offence in its tree, with what the blanks of its case stand for.
pub struct Blanks<'t> {
    pub tree: &'t Tree<'t>,
    pub offence: &'t Offence,
    pub of_case: &'t [(&'static str, String)],
}

/// The text that a node carries.
pub fn text(tree: &Tree, node: usize) -> String {
    String::from_utf8_lossy(tree.text(node)).into_owned()
}

impl Blanks<'_> {
    /// The sentence with its blanks filled in.
    pub fn fill(&self, sentence: &str) -> String {
        let mut parts = sentence.split('{');
        let mut filled = parts.next().unwrap_or_default().to_string();
        for part in parts {
            match part.split_once('}') {
                Some((blank, rest)) => filled.extend([self.value(blank).as_str(), rest]),
                None => filled.push_str(part),
            }
        }
        filled
    }

    fn value(&self, blank: &str) -> String {
        if let Some((_, value)) = self.of_case.iter().find(|(of, _)| *of == blank) {
            return value.clone();
        }
        let node = self.offence.place.node;
        match blank {
            "name" => self.name(),
            "entry" => self.offence.entry.as_ref().map_or("?", |entry| &entry.name).to_string(),
            "where" => self.item(),
            "other" => self.bottom(node + 2),
            "called" => self.called(node + 1),
            "clause" => self.above(node).map_or("", |c| clause_word(self.tree.kind(c))).to_string(),
            "parameter" => self.above(node).map_or(String::new(), |p| self.text(p + 1)),
            "signature" => self.above(node).map_or(String::new(), |e| self.signature(e)),
            "count" => self.items(kind::ASSET).count().to_string(),
            "given" => values(self.tree.children(node).skip(1).count()),
            "declared" => values(self.declared(node + 1)),
            // of a use that the library has said more of, what takes it is filled in already
            "taker" => "in a statement".to_string(),
            _ => String::new(),
        }
    }

    fn text(&self, node: usize) -> String {
        text(self.tree, node)
    }

    fn above(&self, node: usize) -> Option<usize> {
        self.tree.above(node).next()
    }

    fn items(&self, kind: u8) -> impl Iterator<Item = usize> + '_ {
        self.tree.children(0).filter(move |i| self.tree.kind(*i) == kind)
    }

    /// The name that the offence is about: of 40 what is called, not the method.
    fn name(&self) -> String {
        match self.offence.code {
            40 => self.bottom(self.offence.place.node + 1),
            _ => self.offence.name.clone().unwrap_or_else(|| "?".to_string()),
        }
    }

    /// The name at the bottom of a chain of Field bases, Checked and Wrapping taken off on the way.
    fn bottom(&self, node: usize) -> String {
        let through = |n: usize| matches!(self.tree.kind(n), kind::FIELD | kind::CHECKED | kind::WRAPPING);
        let bottom = (node..self.tree.end(node)).find(|n| !through(*n)).unwrap_or(node);
        match self.tree.kind(bottom) {
            kind::CALLER => "caller".to_string(),
            _ => self.text(bottom),
        }
    }

    /// What is called, in words: some callees have no name.
    fn called(&self, callee: usize) -> String {
        match (&self.offence.name, self.tree.kind(callee)) {
            (Some(name), kind::FIELD) => format!("the method `{name}`"),
            (Some(name), _) => format!("`{name}`"),
            (None, _) => "something without a name".to_string(),
        }
    }

    /// The item that the place stands in.
    fn item(&self) -> String {
        let node = self.offence.place.node;
        let item = self.tree.children(0).find(|i| *i <= node && node < self.tree.end(*i));
        match item.map(|i| (i, self.tree.kind(i))) {
            Some((i, kind::ENTRY)) => format!("entry `{}`", self.text(i + 1)),
            Some((_, kind::GENESIS)) => "genesis".to_string(),
            Some((_, kind::INVARIANT)) => "an invariant".to_string(),
            _ => "the contract".to_string(),
        }
    }

    /// How many values the last declaration of the event that is named at `node` has.
    fn declared(&self, node: usize) -> usize {
        let same = |event: &usize| self.tree.text(event + 1) == self.tree.text(node);
        self.items(kind::EVENT).filter(same).last().map_or(0, |e| self.tree.children(e).skip(1).count())
    }

    /// Document 01, 23: "name, `(`, types joined by `,`, `)`".
    fn signature(&self, entry: usize) -> String {
        let params = self.tree.children(entry).filter(|p| self.tree.kind(*p) == kind::PARAM);
        let types = params.map(|p| self.type_text(self.tree.end(p + 1))).collect::<Vec<_>>();
        format!("{}({})", self.text(entry + 1), types.join(","))
    }

    /// "type arguments `<a,b>`, nothing where there are none; 13 as `m of n`". A type nests at most as
    /// deep as an image may.
    fn type_text(&self, node: usize) -> String {
        match self.tree.kind(node) {
            kind::INT_OF_TYPE => self.text(node),
            kind::M_OF_N => format!("{} of {}", self.text(node + 1), self.text(node + 2)),
            _ => {
                let arguments =
                    self.tree.children(node).skip(1).map(|a| self.type_text(a)).collect::<Vec<_>>();
                let listed =
                    if arguments.is_empty() { String::new() } else { format!("<{}>", arguments.join(",")) };
                self.text(node + 1) + &listed
            }
        }
    }
}

fn clause_word(of: u8) -> &'static str {
    if of == kind::READS { "reads" } else { "writes" }
}

fn values(count: usize) -> String {
    match count {
        0 => "no value".to_string(),
        1 => "1 value".to_string(),
        _ => format!("{count} values"),
    }
}
