//! Lots that crowd under few names: parameters, Burns clauses, Lets and uses put into the entries of a
//! contract, so that a name has several rows, a row several marks, and a mark several clauses that could
//! give it. What stood in the entries stays there, and so does the order of parameters, clauses and
//! statements.

use crate::build::*;
use crate::rng::Rng;
use crate::words::*;
use crate::{Node, ident, number};
use form::kind;

/// Crowds every entry of a contract; one that has no entry gets one.
pub fn crowd(rng: &mut Rng, contract: &mut Node) {
    let is_entry = |item: &Node| item.kind == kind::ENTRY;
    if !contract.children.iter().any(is_entry) {
        contract.children.push(entry("e", vec![]));
    }
    for item in contract.children.iter_mut().filter(|item| is_entry(item)) {
        Crowd::of(rng, item).add_to(item);
    }
}

/// What is put into an entry has these names, and its types and clauses these assets.
struct Crowd<'r> {
    rng: &'r mut Rng,
    names: Vec<String>,
    assets: Vec<&'static str>,
}

impl<'r> Crowd<'r> {
    /// One to three names, the entry's own among them.
    fn of(rng: &'r mut Rng, entry: &Node) -> Crowd<'r> {
        let declares = |part: &&Node| [kind::PARAM, kind::LET].contains(&part.kind);
        let own = entry.children.iter().filter(declares);
        let mut names: Vec<String> = own.filter_map(|part| part.children[0].text.clone()).collect();
        names.extend([PARAMS, LOCALS].map(|pool| rng.word(pool).to_string()));
        rng.shuffle(&mut names);
        names.truncate(rng.between(1, 3));
        let assets = (0..rng.between(1, 3)).map(|_| rng.word(ASSETS)).collect();
        Crowd { rng, names, assets }
    }

    fn name(&mut self) -> String {
        self.rng.pick(&self.names).clone()
    }

    fn asset(&mut self) -> &'static str {
        self.rng.word(&self.assets)
    }

    fn add_to(&mut self, entry: &mut Node) {
        let mut parts = std::mem::take(&mut entry.children);
        let before = |is: fn(u8) -> bool| parts.iter().take_while(|part| !is(part.kind)).count();
        let first_clause = before(|k| kind::is_clause(k) || kind::is_statement(k));
        let first_statement = before(kind::is_statement);
        let mut statements = parts.split_off(first_statement);
        let mut clauses = parts.split_off(first_clause);
        // what is left is the entry's Name and its parameters
        let mut params = parts.split_off(1);
        self.mix(&mut params, 4, Self::param);
        self.mix(&mut clauses, 4, Self::clause);
        self.mix(&mut statements, 5, Self::statement);
        entry.children = [parts, params, clauses, statements].concat();
    }

    /// Puts up to `most` new nodes between those that are there.
    fn mix(&mut self, among: &mut Vec<Node>, most: usize, make: fn(&mut Self) -> Node) {
        for _ in 0..self.rng.between(0, most) {
            let made = make(self);
            among.insert(self.rng.between(0, among.len()), made);
        }
    }

    fn param(&mut self) -> Node {
        let (text, asset) = (self.name(), self.asset());
        let ty = match self.rng.below(12) {
            0 => ty("Q_Asset"),
            1 => ty(asset),
            2 => ty_of("Q_Asset", vec![number("3"), ty(asset)]),
            3 => ty_of("Q_Asset", vec![ty_of("List", vec![ty(asset)])]),
            4 => ty_of("List", vec![ty_of("Q_Asset", vec![ty(asset)])]),
            5 => ty_of("Q_Asset", vec![ty(asset), ty(self.asset())]),
            _ => ty_of("Q_Asset", vec![ty(asset)]),
        };
        param(&text, ty)
    }

    /// Burns, or now and then another clause that names an asset.
    fn clause(&mut self) -> Node {
        let kind = if self.rng.one_in(8) { kind::MINTS } else { kind::BURNS };
        of_asset(kind, self.asset())
    }

    /// A Let of one of the names, or a use of one.
    fn statement(&mut self) -> Node {
        let (text, used) = (self.name(), ident(&self.name()));
        match self.rng.below(12) {
            0 | 1 => local(&text, apply("mint", vec![])),
            2 => local(&text, wrapping(method(used, "split", vec![]))),
            3 => local(&text, apply("mint", vec![used])),
            4 => local(&text, int()),
            5 => assign(ident("s"), used),
            6 => assign(ident("s"), checked(used)),
            7 => guard(method(ident("s"), "get", vec![used])),
            8 => does(method(ident("s"), "get", vec![apply("send", vec![used])])),
            9 => does(apply("send", vec![used, checked(ident(&text))])),
            _ => does(apply("send", vec![caller(), used])),
        }
    }
}
