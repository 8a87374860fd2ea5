//! What a contract declares and does, found in its tree: what advice and other places are made from.
//! Nothing here judges; the library has judged.

use crate::lots::Lots;
use form::image::MAX_NAME;
use form::{Tree, kind};
use isonkaypu::Lot;

/// The tree of a contract, asked for what stands in it, and its lots.
#[derive(Clone, Copy)]
pub struct Facts<'t> {
    pub tree: &'t Tree<'t>,
    pub lots: &'t Lots<'t>,
}

/// What a number behind a name takes at most.
const ROOM: usize = 8;
/// Methods that change what they are called on.
const CHANGING: &[&str] = &["merge", "split", "credit", "debit", "insert", "remove", "set"];
/// Methods whose arguments are not used up.
const READING: &[&str] = &["get", "contains", "has"];

impl<'t> Facts<'t> {
    pub fn text(&self, node: usize) -> String {
        String::from_utf8_lossy(self.tree.text(node)).into_owned()
    }

    /// Whether a node carries this text.
    pub fn is(&self, node: usize, text: &str) -> bool {
        self.tree.text(node) == text.as_bytes()
    }

    pub fn above(&self, node: usize) -> Option<usize> {
        self.tree.above(node).next()
    }

    pub fn items(&self, kind: u8) -> impl Iterator<Item = usize> + use<'t> {
        let tree = self.tree;
        tree.children(0).filter(move |item| tree.kind(*item) == kind)
    }

    /// The children of a node that are of this kind.
    pub fn parts(&self, node: usize, kind: u8) -> impl Iterator<Item = usize> + use<'t> {
        let tree = self.tree;
        tree.children(node).filter(move |part| tree.kind(*part) == kind)
    }

    /// The FieldDecls of all State blocks.
    pub fn fields(&self) -> impl Iterator<Item = usize> + use<'t> {
        let tree = self.tree;
        self.items(kind::STATE).flat_map(move |state| tree.children(state))
    }

    /// The last declaration of a state field.
    pub fn field(&self, name: &str) -> Option<usize> {
        self.fields().filter(|field| self.is(field + 1, name)).last()
    }

    /// The last declaration of an event.
    pub fn event(&self, name: &str) -> Option<usize> {
        self.items(kind::EVENT).filter(|event| self.is(event + 1, name)).last()
    }

    /// How many values an Event or an Emit has: all children but the Name.
    pub fn values(&self, node: usize) -> usize {
        self.tree.children(node).skip(1).count()
    }

    /// The Emits of entries and genesis.
    pub fn emits(&self) -> impl Iterator<Item = usize> + use<'t> {
        let facts = *self;
        let bodies = self.items(kind::ENTRY).chain(self.items(kind::GENESIS));
        bodies.flat_map(move |body| facts.parts(body, kind::EMIT))
    }

    /// The parameter or the Let of an entry that has this name, where one has.
    pub fn named_in(&self, entry: usize, name: &str) -> Option<usize> {
        let parts = self.parts(entry, kind::PARAM).chain(self.parts(entry, kind::LET));
        parts.into_iter().find(|part| self.is(part + 1, name))
    }

    /// How many parameters and Lets of an entry have this name.
    pub fn namesakes(&self, entry: usize, name: &str) -> usize {
        let parts = self.parts(entry, kind::PARAM).chain(self.parts(entry, kind::LET));
        parts.filter(|part| self.is(part + 1, name)).count()
    }

    /// The Type of a FieldDecl or a Param.
    fn type_of(&self, declared: usize) -> usize {
        self.tree.end(declared + 1)
    }

    /// Whether a FieldDecl or a Param is of a type of this name.
    pub fn is_of_type(&self, declared: usize, name: &str) -> bool {
        self.is(self.type_of(declared) + 1, name)
    }

    /// The Name of the asset of a FieldDecl or a Param that is a lot.
    pub fn asset_of(&self, declared: usize) -> Option<usize> {
        let ty = self.type_of(declared);
        self.is_of_type(declared, "Q_Asset").then(|| self.first_type(ty)).flatten()
    }

    fn first_type(&self, ty: usize) -> Option<usize> {
        self.tree.children(ty).nth(1).filter(|first| self.tree.kind(*first) == kind::TYPE).map(|t| t + 1)
    }

    /// Document 01: "Known assets", in the order in which they stand.
    pub fn known_assets(&self) -> Vec<String> {
        let declared = self.items(kind::ASSET).map(|asset| self.text(asset + 1));
        let params = self.items(kind::ENTRY).flat_map(|entry| self.parts(entry, kind::PARAM));
        let types = self.fields().chain(params).map(|declared| self.type_of(declared));
        let inside = types.flat_map(|ty| ty..self.tree.end(ty));
        let lots = inside.filter(|t| self.tree.kind(*t) == kind::TYPE && self.is(t + 1, "Q_Asset"));
        let named = lots.filter_map(|t| self.first_type(t)).map(|name| self.text(name));
        declared.chain(named).chain(["QTOV".to_string()]).collect()
    }

    /// Checked and Wrapping taken off the outside.
    pub fn peeled(&self, mut node: usize) -> usize {
        while matches!(self.tree.kind(node), kind::CHECKED | kind::WRAPPING) {
            node += 1;
        }
        node
    }

    /// The bottom of a chain of Field bases, peeled at each step.
    pub fn bottom(&self, mut node: usize) -> usize {
        while matches!(self.tree.kind(node), kind::FIELD | kind::CHECKED | kind::WRAPPING) {
            node += 1;
        }
        node
    }

    /// The method of a Call, with its base.
    pub fn method(&self, call: usize) -> Option<(usize, usize)> {
        let callee = call + 1;
        let field = self.tree.kind(callee) == kind::FIELD;
        field.then(|| (callee + 1, self.tree.end(callee + 1)))
    }

    /// The statement of an entry or of genesis that a node stands in.
    pub fn statement_of(&self, node: usize) -> Option<usize> {
        let mut above = std::iter::once(node).chain(self.tree.above(node));
        above.find(|part| kind::is_statement(self.tree.kind(*part)))
    }

    /// The name that a node of a statement changes: an Assign's root, or the base root of a Call with a
    /// method that changes.
    pub fn changed(&self, node: usize) -> Option<usize> {
        let root = match self.tree.kind(node) {
            kind::ASSIGN => node + 1,
            kind::CALL => self.method(node).filter(|(_, name)| self.is_any(*name, CHANGING))?.0,
            _ => return None,
        };
        Some(self.bottom(root)).filter(|bottom| self.tree.kind(*bottom) == kind::IDENT)
    }

    fn is_any(&self, node: usize, texts: &[&str]) -> bool {
        texts.iter().any(|text| self.is(node, text))
    }

    pub fn is_changing(method: &str) -> bool {
        CHANGING.contains(&method)
    }

    pub fn is_reading(method: &str) -> bool {
        READING.contains(&method)
    }

    /// The nodes of an entry's statements.
    pub fn body(&self, entry: usize) -> std::ops::Range<usize> {
        let mut statements = self.tree.children(entry).filter(|s| kind::is_statement(self.tree.kind(*s)));
        let end = self.tree.end(entry);
        statements.next().unwrap_or(end)..end
    }

    /// The lots of an entry: document 01's tracked rows, in order.
    pub fn lots(&self, entry: usize) -> impl DoubleEndedIterator<Item = &'t Lot> + use<'t> {
        let inside = entry..self.tree.end(entry);
        let is_entry = self.tree.kind(entry) == kind::ENTRY;
        self.lots.all().iter().filter(move |lot| is_entry && inside.contains(&lot.place.node))
    }

    /// Document 01: "Counted occurrences", in preorder.
    pub fn uses(&self, entry: usize) -> Vec<usize> {
        self.uses_in(self.body(entry))
    }

    /// The counted occurrences among these nodes.
    pub fn uses_in(&self, nodes: std::ops::Range<usize>) -> Vec<usize> {
        let mut uses: Vec<usize> = nodes.flat_map(|node| self.uses_at(node)).collect();
        uses.sort_unstable();
        uses
    }

    /// What an Assign or a Call uses up itself.
    fn uses_at(&self, node: usize) -> Vec<usize> {
        let is_ident = |node: &usize| self.tree.kind(*node) == kind::IDENT;
        match self.tree.kind(node) {
            kind::ASSIGN => self.tree.children(node).skip(1).filter(is_ident).collect(),
            kind::CALL if self.method(node).is_some_and(|(_, name)| self.is_any(name, READING)) => vec![],
            kind::CALL => self.tree.children(node).skip(1).map(|a| self.peeled(a)).filter(is_ident).collect(),
            _ => vec![],
        }
    }

    /// What is called, or assigned to, as it stands: names with points between them.
    fn path(&self, node: usize) -> Option<String> {
        match self.tree.kind(node) {
            kind::IDENT => Some(self.text(node)),
            kind::CALLER => Some("caller".to_string()),
            kind::FIELD => Some(format!("{}.{}", self.path(node + 1)?, self.text(self.tree.end(node + 1)))),
            _ => None,
        }
    }

    /// What takes a lot, in words: the Call that it is handed to, or the Assign that stores it.
    pub fn taker(&self, consumer: usize) -> String {
        match (self.tree.kind(consumer), self.path(consumer + 1)) {
            (kind::ASSIGN, Some(path)) => format!("stored in `{path}`"),
            (kind::ASSIGN, None) => "stored".to_string(),
            (_, Some(path)) => format!("taken by the call `{path}`"),
            (_, None) => match self.method(consumer) {
                Some((_, name)) => format!("taken by the method `{}`", self.text(name)),
                None => "taken by a call".to_string(),
            },
        }
    }

    /// Whether a text stands anywhere in the contract.
    fn is_text(&self, text: &str) -> bool {
        self.tree.all().any(|node| self.is(node, text))
    }

    /// A name like this one that nothing in the contract has, short enough for an image.
    pub fn fresh(&self, name: &str) -> String {
        let short: String = name.chars().take(MAX_NAME - ROOM).collect();
        let numbered = (2..).map(|n| format!("{short}_{n}"));
        numbered.into_iter().find(|one| !self.is_text(one)).unwrap_or_default()
    }

    /// This name, or one like it where something in the contract has it.
    pub fn fresh_or(&self, name: &str) -> String {
        if self.is_text(name) { self.fresh(name) } else { name.to_string() }
    }
}

#[cfg(test)]
mod tests {
    use super::*;
    use crate::lots::{clauses, uses};

    /// What is asked of the only entry of a contract.
    fn asked<T>(parameters: &str, clauses: &str, body: &str, ask: impl Fn(&str, Facts, usize) -> T) -> T {
        let text = format!("contract C {{ entry e({parameters}) {clauses} {{ {body} }} }}");
        let image = example::image(&text);
        let tree = Tree::of(&image).expect("a tree");
        let facts = Facts { tree: &tree, lots: &Lots::of(&image) };
        let entry = facts.items(kind::ENTRY).next().expect("an entry");
        ask(&text, facts, entry)
    }

    /// For each lot, the text from the Name of each clause that burns it on.
    fn marks(parameters: &str, clauses_: &str, body: &str) -> Vec<Vec<String>> {
        asked(parameters, clauses_, body, |text, facts, entry| {
            let from = |name: usize| text[facts.tree.nodes[name].from as usize..].replace(" {  } }", "");
            facts.lots(entry).map(|lot| clauses(&lot.reasons).map(from).collect()).collect()
        })
    }

    #[test]
    fn one_mark_for_each_burned_parameter_in_their_order() {
        let lots = "x: Q_Asset<N>, x: Q_Asset<M>, y: Q_Asset<M>, x: Q_Asset<O>, x: Q_Asset<N>, x: u8";
        let none: [&str; 0] = [];
        let of_x = ["N", "M burns N", "N"];
        assert_eq!(marks(lots, "burns M burns N", ""), [&of_x[..], &none, &["M burns N"], &none, &none]);
        // of two clauses with one asset the first gives the mark
        assert_eq!(marks("x: Q_Asset<M>", "burns M burns M", ""), [["M burns M"]]);
    }

    #[test]
    fn what_gives_no_mark() {
        for parameters in ["x: Q_Asset", "x: Q_Asset<3>", "x: Q_Asset<N>", "x: Q_Asset<N, M>"] {
            assert_eq!(marks(parameters, "burns M", ""), [[""; 0]], "{parameters}");
        }
        assert_eq!(marks("", "burns M", "let x = mint(1);"), [[""; 0]]);
        let later = marks("x: Q_Asset<M>", "burns M", "let x = mint(1);");
        assert_eq!(later.iter().map(Vec::len).collect::<Vec<_>>(), [1, 0]);
    }

    /// What takes the lot at each of its uses.
    #[test]
    fn takers() {
        let body = "send(1, x); s.merge(x); s.part.set(x); s.get(1).insert(checked(x)); checked(send)(x); s = x; \
                    s.part = x; s.get(s.set(x)); caller.pay(x); s.get(1).part = x;";
        let takers = asked("x: Q_Asset<M>", "", body, |_, facts, entry| {
            let lot = facts.lots(entry).next().expect("a lot");
            assert_eq!(uses(&lot.reasons).count(), lot.reasons.len());
            let consumers = lot.reasons.iter().filter_map(|reason| reason.consumer());
            consumers.map(|consumer| facts.taker(consumer.node)).collect::<Vec<_>>()
        });
        let expected = [
            "taken by the call `send`",
            "taken by the call `s.merge`",
            "taken by the call `s.part.set`",
            "taken by the method `insert`",
            "taken by a call",
            "stored in `s`",
            "stored in `s.part`",
            "taken by the call `s.set`",
            "taken by the call `caller.pay`",
            "stored",
        ];
        assert_eq!(takers, expected);
    }
}
