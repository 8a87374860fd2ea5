//! The places of a SARIF log: lines and columns where the source is shown, else the image's file with
//! names and node numbers.

use super::{rules, source};
use crate::blanks::text;
use crate::json::value::{Value, list, object};
use crate::region::Region;
use crate::{Mark, Source, Subject, escape};
use form::Tree;
use isonkaypu::{Entry, Span};

/// What places are made from.
pub struct Places<'a> {
    uri: String,
    /// Where the file stands among the artifacts.
    artifact: usize,
    source: Option<Source<'a>>,
    tree: Option<Tree<'a>>,
}

impl<'a> Places<'a> {
    pub fn of(subject: &'a Subject, artifact: usize) -> Places<'a> {
        let tree = subject.report().and_then(|report| report.tree());
        Places { uri: escape::uri(subject.label()), artifact, source: source(subject), tree }
    }

    /// The file: the place in it, where the source is at hand and has it, else as a whole.
    pub fn whole(&self, span: Option<Span>) -> Value {
        let region = span.and_then(|span| Region::of(self.source.as_ref(), span));
        object([("physicalLocation", self.physical(region.as_ref()))])
    }

    /// A related place: as a location, with its number in the result and what it is.
    pub fn related(&self, mark: &Mark, id: usize) -> Value {
        self.location(mark).with("id", Some(id.into()))
    }

    /// A mark as a location: in the source, where it is shown and the span lies in it, else in the file,
    /// and in the contract's tree.
    pub fn location(&self, mark: &Mark) -> Value {
        let region = Region::of(self.source.as_ref(), mark.span);
        object([("physicalLocation", self.physical(region.as_ref()))])
            .with("logicalLocations", Some(list([self.logical(mark.node)])))
            .with("message", Some(rules::message(&mark.label)))
            .with("properties", Some(numbers(mark)))
    }

    fn physical(&self, region: Option<&Region>) -> Value {
        let artifact = object([("uri", self.uri.as_str().into()), ("index", self.artifact.into())]);
        object([("artifactLocation", artifact)]).with("region", region.map(of_region))
    }

    /// The entry that the node stands in, with its node, which tells entries of one name apart; else the contract.
    fn logical(&self, node: usize) -> Value {
        let tree = self.tree.as_ref();
        // the first child of a Contract is its Name
        let contract = tree.map_or(String::new(), |tree| text(tree, 1));
        let Some(entry) = tree.and_then(|tree| Entry::around(tree, node)) else {
            return logical(&contract, contract.clone(), "type");
        };
        let node = object([("node", entry.place.node.into())]);
        logical(&entry.name, format!("{contract}.{}", entry.name), "function").with("properties", Some(node))
    }
}

fn logical(name: &str, whole_name: String, kind: &'static str) -> Value {
    object([("name", name.into()), ("fullyQualifiedName", whole_name.into()), ("kind", kind.into())])
}

/// The numbers as the image has them, and whether document 01's list has the place.
fn numbers(mark: &Mark) -> Value {
    let Span { start, end } = mark.span;
    object([("node", mark.node.into()), ("from", start.into()), ("to", end.into())])
        .with("listed", Some(mark.listed.into()))
}

fn of_region(region: &Region) -> Value {
    object([
        ("startLine", region.start.0.into()),
        ("startColumn", region.start.1.into()),
        ("endLine", region.end.0.into()),
        ("endColumn", region.end.1.into()),
        ("byteOffset", region.bytes.start.into()),
        ("byteLength", region.bytes.len().into()),
    ])
}
