//! Expressions, and the places in them where a rule looks: bases, callees, arguments.

use crate::build::*;
use crate::maker::{Maker, Site};
use crate::words::*;
use crate::{Node, ident, leaf, node};
use form::kind;

/// What the linear pass makes of an Ident in this position.
#[derive(Clone, Copy, PartialEq, Eq)]
pub enum Use {
    /// It is never a use.
    Free,
    /// It is one when it stands there bare: an Assign value.
    Bare,
    /// It is one when it is all that is left after peeling: an argument.
    Peeled,
}

const LEAVES: &[u8] =
    &[kind::INT, kind::DATE, kind::STR, kind::CALLER, kind::NATIVE, kind::IN_ASSET, kind::NOW];

impl Maker<'_> {
    pub fn expression(&mut self, levels: usize) -> Node {
        self.expression_for(levels, Use::Free)
    }

    pub fn expressions(&mut self, count: usize, levels: usize, position: Use) -> Vec<Node> {
        (0..count).map(|_| self.expression_for(levels, position)).collect()
    }

    pub fn expression_for(&mut self, levels: usize, position: Use) -> Node {
        self.spend(1);
        if levels == 0 || self.room == 0 {
            return self.leaf(position);
        }
        let below = levels - 1;
        let peeled = if position == Use::Peeled { Use::Peeled } else { Use::Free };
        let made = match self.rng.below(12) {
            0 => node(kind::UNARY, vec![self.expression(below)]),
            1 | 2 => binary(self.expression(below), self.expression(below)),
            3 => {
                let text = self.any_word();
                field(self.expression(below), &text)
            }
            4 | 5 => self.call(below),
            6 => checked(self.expression_for(below, peeled)),
            7 => wrapping(self.expression_for(below, peeled)),
            _ => self.leaf(position),
        };
        if self.taste.deep && self.rng.one_in(6) { self.deepened(made) } else { made }
    }

    fn deepened(&mut self, inner: Node) -> Node {
        let levels = self.rng.between(5, 50);
        let unary = self.rng.one_in(2);
        (0..levels).fold(node(kind::UNARY, vec![inner]), |inner, _| {
            if unary { node(kind::UNARY, vec![inner]) } else { checked(inner) }
        })
    }

    fn leaf(&mut self, position: Use) -> Node {
        if self.rng.one_in(3) {
            return leaf(*self.rng.pick(LEAVES));
        }
        match self.ident_text(position) {
            Some(text) => ident(&text),
            None => int(),
        }
    }

    /// The text of an Ident that may stand here.
    fn ident_text(&mut self, position: Use) -> Option<String> {
        let site = self.site;
        let ruled = matches!(site, Site::Invariant | Site::Clause | Site::Entry);
        if ruled && self.rng.one_in(3) && self.takes(32) {
            return Some("deployer".to_string());
        }
        match site {
            Site::Default | Site::Genesis => Some(self.any_word()),
            Site::Invariant if self.takes(50) => Some(self.any_word()),
            Site::Invariant => self.one_of(&self.state_names()),
            Site::Clause => Some(self.outside_word()),
            Site::Entry if self.takes(26) => Some(self.rng.word(LOCALS).to_string()),
            Site::Entry => Some(self.name_in_scope(position)),
        }
    }

    /// Any word but `deployer`.
    fn outside_word(&mut self) -> String {
        let text = self.any_word();
        if text == "deployer" { "Deployer".to_string() } else { text }
    }

    fn name_in_scope(&mut self, position: Use) -> String {
        let mut names = self.state_names();
        names.extend(self.scope.params.iter().map(|p| p.name.clone()));
        names.extend(self.scope.locals.iter().cloned());
        let unmoved = position == Use::Free || self.takes(62);
        let rows = &self.scope.rows;
        names.retain(|n| unmoved || !rows.contains(n));
        match self.one_of(&names) {
            Some(text) if !self.rng.one_in(6) => text,
            _ => self.rng.word(FREE).to_string(),
        }
    }

    /// Checked and Wrapping around it, or nothing.
    pub fn wrapped(&mut self, inner: Node) -> Node {
        match self.rng.below(6) {
            0 => checked(inner),
            1 => wrapping(inner),
            2 => checked(wrapping(inner)),
            _ => inner,
        }
    }

    /// A chain of Fields over a bottom, now and then with Checked or Wrapping on the way.
    pub fn chain(&mut self, bottom: Node) -> Node {
        let mut made = bottom;
        for _ in 0..self.rng.below(3) {
            let text = self.any_word();
            made = match self.rng.below(5) {
                0 => checked(made),
                1 => wrapping(made),
                _ => field(made, &text),
            };
        }
        made
    }

    pub fn call(&mut self, levels: usize) -> Node {
        self.spend(3);
        match self.site {
            Site::Entry | Site::Genesis => self.statement_call(levels),
            _ => self.unruled_call(levels),
        }
    }

    /// A Call where no rule looks for Calls: any callee will do.
    fn unruled_call(&mut self, levels: usize) -> Node {
        let callee = match self.leaf(Use::Free) {
            base if self.rng.one_in(2) => {
                let text = self.any_word();
                field(base, &text)
            }
            callee => callee,
        };
        let count = self.rng.below(3);
        call(callee, self.expressions(count, levels.min(1), Use::Free))
    }

    fn statement_call(&mut self, levels: usize) -> Node {
        if self.takes(34) {
            return self.unknown_call(levels);
        }
        if self.site == Site::Entry && self.takes(40) {
            return self.outward_call(levels);
        }
        match self.rng.below(5) {
            0 | 1 => {
                let text = self.known_function();
                apply(text, self.arguments(levels, Use::Peeled))
            }
            2 => {
                let text = self.rng.word(READING).to_string();
                let base = self.method_base(false);
                method(base, &text, self.arguments(levels, Use::Free))
            }
            _ => {
                let text = self.rng.word(WRITING).to_string();
                let base = self.method_base(true);
                method(base, &text, self.arguments(levels, Use::Peeled))
            }
        }
    }

    /// `mint_asset` only where it is no offence, or tempting.
    fn known_function(&mut self) -> &'static str {
        if self.takes(22) {
            return "mint_asset";
        }
        let others = &FUNCTIONS[..3];
        self.rng.word(if self.assets.len() <= 1 { FUNCTIONS } else { others })
    }

    pub fn arguments(&mut self, levels: usize, position: Use) -> Vec<Node> {
        let count = self.rng.below(3);
        (0..count).map(|_| self.argument(levels, position)).collect()
    }

    fn argument(&mut self, levels: usize, position: Use) -> Node {
        let counted = position == Use::Peeled && self.site == Site::Entry;
        if counted && !self.scope.pending.is_empty() && self.rng.one_in(3) {
            let asset = self.next_pending();
            return self.wrapped(ident(&asset));
        }
        self.expression_for(levels.min(2), position)
    }

    /// The base of a method, over no address. Where the method writes, its root is noted.
    pub fn method_base(&mut self, writing: bool) -> Node {
        if self.rng.one_in(5) {
            let bottom = leaf(*self.rng.pick(&[kind::INT, kind::NATIVE, kind::IN_ASSET]));
            return self.chain(bottom);
        }
        let address = |m: &Self, t: &str| {
            let mut declared = m.fields.iter().chain(&m.scope.params);
            declared.any(|d| d.address && d.name == t)
        };
        let mut text = self.name_in_scope(Use::Free);
        if address(self, &text) {
            text = self.not_state();
        }
        if writing && self.is_state(&text) {
            self.scope.written.push(text.clone());
        }
        self.chain(ident(&text))
    }

    /// A Call that the language does not know.
    fn unknown_call(&mut self, levels: usize) -> Node {
        let base = self.method_base(false);
        let known = self.rng.word(FUNCTIONS).to_string();
        let known_method = self.rng.word(READING).to_string();
        let callee = match self.rng.below(6) {
            0 => ident(self.rng.word(FREE)),
            1 => field(base, "has"),
            2 => field(base, self.rng.word(NEAR_WORDS)),
            3 => checked(ident(&known)),
            4 => wrapping(field(base, &known_method)),
            _ => leaf(kind::INT),
        };
        call(callee, self.arguments(levels, Use::Peeled))
    }

    /// A Call that leaves the entry: down from Caller or from an address.
    fn outward_call(&mut self, levels: usize) -> Node {
        let declared = self.fields.iter().chain(&self.scope.params);
        let addresses: Vec<String> = declared.filter(|d| d.address).map(|d| d.name.clone()).collect();
        let bottom = match self.one_of(&addresses) {
            Some(text) if !self.rng.one_in(3) => ident(&text),
            _ => caller(),
        };
        let base = self.chain(bottom);
        let text = self.rng.word(READING).to_string();
        let callee = if self.rng.one_in(6) { base } else { field(base, &text) };
        call(callee, self.arguments(levels, Use::Peeled))
    }
}
