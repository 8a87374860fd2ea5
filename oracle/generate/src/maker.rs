//! Contracts that are clean but for what their taste tempts them to: the items and what they
//! declare. `body` makes statements, `expression` what stands in them.

use crate::build::*;
use crate::rng::Rng;
use crate::taste::Taste;
use crate::words::*;
use crate::{Node, leaf, name, node, number};
use form::kind;

/// A parameter or a field: its name and whether it is of type `Q_Address`.
#[derive(Clone)]
pub struct Declared {
    pub name: String,
    pub address: bool,
}

/// Where an expression stands, since that decides which rules see it.
#[derive(Clone, Copy, PartialEq, Eq)]
pub enum Site {
    Entry,
    Genesis,
    Invariant,
    Clause,
    Default,
}

/// What has been declared around the statement that is being made.
#[derive(Default)]
pub struct Scope {
    pub params: Vec<Declared>,
    pub locals: Vec<String>,
    /// The names of tracked assets.
    pub rows: Vec<String>,
    /// Of those, the ones that still want their one use.
    pub pending: Vec<String>,
    /// State names that a Writes clause should have.
    pub written: Vec<String>,
}

pub struct Maker<'r> {
    pub rng: &'r mut Rng,
    pub taste: Taste,
    /// How many nodes may still be made.
    pub room: usize,
    pub site: Site,
    pub fields: Vec<Declared>,
    pub events: Vec<(String, usize)>,
    pub assets: Vec<String>,
    pub scope: Scope,
    known: Vec<String>,
    /// Names and parameter types of the entries so far.
    signatures: Vec<(String, Vec<Node>)>,
}

impl<'r> Maker<'r> {
    pub fn new(rng: &'r mut Rng) -> Maker<'r> {
        let taste = Taste::draw(rng);
        let room = taste.size;
        Maker {
            rng,
            taste,
            room,
            site: Site::Entry,
            fields: Vec::new(),
            events: Vec::new(),
            assets: Vec::new(),
            scope: Scope::default(),
            known: vec!["QTOV".to_string()],
            signatures: Vec::new(),
        }
    }

    pub fn takes(&mut self, code: u16) -> bool {
        self.taste.takes(self.rng, code)
    }

    /// Counts a made node against the room.
    pub fn spend(&mut self, nodes: usize) {
        self.room = self.room.saturating_sub(nodes);
    }

    pub fn word(&mut self, from: &[&'static str]) -> String {
        if self.taste.wordy && self.rng.one_in(5) {
            return self.rng.word(RULE_WORDS).to_string();
        }
        self.rng.word(from).to_string()
    }

    /// Any name at all: of another role, near to a rule's word, or such a word.
    pub fn any_word(&mut self) -> String {
        let pools = [FIELDS, PARAMS, LOCALS, FREE, ASSETS, EVENTS, ENTRIES, TYPES, RULE_WORDS, NEAR_WORDS];
        let pool = *self.rng.pick(&pools);
        self.rng.word(pool).to_string()
    }

    /// A name from the pool that is not taken; a number is put behind it where all are.
    pub fn fresh(&mut self, pool: &[&'static str], taken: impl Fn(&Self, &str) -> bool) -> String {
        for _ in 0..4 {
            let text = self.word(pool);
            if !taken(self, &text) {
                return text;
            }
        }
        let stem = self.rng.word(pool).to_string();
        let mut number = 1;
        while taken(self, &format!("{stem}{number}")) {
            number += 1;
        }
        format!("{stem}{number}")
    }

    /// One of the names given, where there is one.
    pub fn one_of(&mut self, names: &[String]) -> Option<String> {
        (!names.is_empty()).then(|| self.rng.pick(names).clone())
    }

    pub fn is_state(&self, text: &str) -> bool {
        self.fields.iter().any(|f| f.name == text)
    }

    pub fn state_names(&self) -> Vec<String> {
        self.fields.iter().map(|f| f.name.clone()).collect()
    }

    /// A name that is no state name.
    pub fn not_state(&mut self) -> String {
        self.fresh(FREE, |m, t| m.is_state(t))
    }

    pub fn contract(mut self) -> Node {
        let mut items = self.declarations();
        for _ in 0..self.count(2, &[33]) {
            items.push(self.genesis());
        }
        for _ in 0..self.count(2, &[50]) {
            items.push(self.invariant());
        }
        let entry_codes =
            [23, 24, 25, 26, 27, 28, 29, 30, 31, 32, 34, 35, 36, 37, 38, 39, 40, 51, 60, 61, 62];
        for _ in 0..self.count(3, &entry_codes) {
            items.push(self.entry());
        }
        while self.room > 60 {
            items.push(self.entry());
        }
        self.rng.shuffle(&mut items);
        let text = self.any_word();
        contract(&text, items)
    }

    /// Up to `most`, and at least one where one of the codes wants it.
    fn count(&mut self, most: usize, codes: &[u16]) -> usize {
        let least = usize::from(self.taste.leans_to(codes));
        self.rng.between(least, most)
    }

    fn declarations(&mut self) -> Vec<Node> {
        let assets = self.count(2, &[22]) + usize::from(self.taste.leans_to(&[22]));
        let mut items: Vec<Node> = (0..assets).map(|_| self.asset()).collect();
        for _ in 0..self.count(2, &[20, 24, 28, 40, 51]) {
            items.push(self.state_block());
        }
        for _ in 0..self.count(2, &[21, 31]) {
            items.push(self.event());
        }
        if self.takes(21) {
            items.push(self.event());
        }
        items
    }

    fn asset(&mut self) -> Node {
        let text = self.word(ASSETS);
        self.assets.push(text.clone());
        self.known.push(text.clone());
        self.spend(2);
        asset(&text)
    }

    fn state_block(&mut self) -> Node {
        let most = if self.room > 300 { 40 } else { 4 };
        let fields = (0..self.rng.between(1, most)).map(|_| self.field()).collect();
        self.spend(1);
        state(fields)
    }

    fn field(&mut self) -> Node {
        let again = self.state_names();
        let text = match self.one_of(&again) {
            Some(text) if self.takes(20) => text,
            _ => self.fresh(FIELDS, |m, t| m.is_state(t)),
        };
        let ty = if self.rng.one_in(4) { ty("Q_Address") } else { self.ty(2) };
        self.fields.retain(|f| f.name != text);
        self.fields.push(Declared { name: text.clone(), address: is_type(&ty, "Q_Address") });
        let mut made = field_decl(&text, ty);
        if self.rng.one_in(5) {
            self.site = Site::Default;
            made.children.push(self.expression(2));
        }
        self.spend(2);
        made
    }

    fn event(&mut self) -> Node {
        let again: Vec<String> = self.events.iter().map(|(n, _)| n.clone()).collect();
        let text = match self.one_of(&again) {
            Some(text) if self.takes(21) => text,
            _ => self.fresh(EVENTS, |m, t| m.events.iter().any(|(n, _)| n == t)),
        };
        let params = self.rng.below(4);
        self.events.retain(|(n, _)| *n != text);
        self.events.push((text.clone(), params));
        self.spend(2 + params);
        event(&text, params)
    }

    fn invariant(&mut self) -> Node {
        self.site = Site::Invariant;
        self.spend(1);
        invariant(self.expression(3))
    }

    fn genesis(&mut self) -> Node {
        self.site = Site::Genesis;
        self.scope = Scope::default();
        self.spend(1);
        genesis(self.statements())
    }

    fn entry(&mut self) -> Node {
        self.scope = Scope::default();
        let burned = self.burned();
        let (text, types) = self.entry_head();
        let mut parts: Vec<Node> = types.into_iter().map(|t| self.param(t, &burned)).collect();
        self.site = Site::Entry;
        let mut statements = self.statements();
        statements.extend(self.last_uses());
        self.site = Site::Clause;
        parts.extend(self.clauses(&burned));
        parts.extend(statements);
        self.spend(2);
        entry(&text, parts)
    }

    /// The name and the parameter types of an entry. A tempted one takes those of an earlier
    /// entry, or nearly.
    fn entry_head(&mut self) -> (String, Vec<Node>) {
        let (text, types) = if !self.signatures.is_empty() && self.takes(23) {
            let (text, mut types) = self.rng.pick(&self.signatures).clone();
            if self.rng.one_in(3) {
                self.change_a_type(&mut types);
            }
            (text, types)
        } else {
            let text = self.fresh(ENTRIES, |m, t| m.signatures.iter().any(|(n, _)| n == t));
            let types = (0..self.rng.below(4)).map(|_| self.param_type()).collect();
            (text, types)
        };
        self.signatures.push((text.clone(), types.clone()));
        (text, types)
    }

    fn change_a_type(&mut self, types: &mut Vec<Node>) {
        let other = self.param_type();
        if types.is_empty() || self.rng.one_in(3) {
            types.push(other);
        } else {
            let k = self.rng.below(types.len());
            types[k].children.push(other);
        }
    }

    fn param_type(&mut self) -> Node {
        match self.rng.below(6) {
            0 => ty("Q_Address"),
            1 => ty("Q_Asset"),
            2 | 3 => {
                let inner = match self.one_of(&self.assets.clone()) {
                    Some(text) => ty(&text),
                    None => self.ty(0),
                };
                self.known.extend(inner.children[0].text.clone());
                ty_of("Q_Asset", vec![inner])
            }
            _ => self.ty(2),
        }
    }

    /// A type of some levels; what it makes known is noted.
    fn ty(&mut self, levels: usize) -> Node {
        let text = match self.rng.below(8) {
            0 => "Q_Asset".to_string(),
            1 => self.any_word(),
            _ => self.word(TYPES),
        };
        let count = if levels == 0 { 0 } else { self.rng.below(3) };
        let arguments: Vec<Node> = (0..count).map(|_| self.type_argument(levels - 1)).collect();
        self.spend(2);
        if let (true, Some(first)) = (text == "Q_Asset", arguments.first()) {
            let inner = first.children.first().filter(|_| first.kind == kind::TYPE);
            self.known.extend(inner.and_then(|n| n.text.clone()));
        }
        let made = ty_of(&text, arguments);
        if self.taste.deep && self.rng.one_in(4) {
            let levels = self.rng.between(5, 58);
            return (0..levels).fold(made, |inner, _| ty_of("List", vec![inner]));
        }
        made
    }

    fn type_argument(&mut self, levels: usize) -> Node {
        match self.rng.below(5) {
            0 => number(self.rng.word(NUMBERS)),
            1 => m_of_n(self.rng.word(NUMBERS), self.rng.word(NUMBERS)),
            _ => self.ty(levels),
        }
    }

    fn param(&mut self, ty: Node, burned: &[String]) -> Node {
        let text = self.param_name();
        let is_asset = is_type(&ty, "Q_Asset");
        let inner = ty.children.get(1).and_then(|t| t.children.first()?.text.clone());
        if is_asset {
            self.scope.rows.push(text.clone());
            // a burn is a use: one more is an offence
            if !inner.is_some_and(|t| burned.contains(&t)) || self.takes(62) {
                self.scope.pending.push(text.clone());
            }
        }
        self.scope.params.push(Declared { name: text.clone(), address: is_type(&ty, "Q_Address") });
        self.spend(4);
        match self.signer() {
            Some(signer) => signed(&text, ty, name(&signer)),
            None => param(&text, ty),
        }
    }

    fn param_name(&mut self) -> String {
        let earlier: Vec<String> = self.scope.params.iter().map(|p| p.name.clone()).collect();
        if let (true, Some(text)) = (self.takes(24), self.one_of(&self.state_names())) {
            return text;
        }
        if let (true, Some(text)) = (self.takes(25), self.one_of(&earlier)) {
            return text;
        }
        self.fresh(PARAMS, |m, t| m.is_state(t) || m.scope.params.iter().any(|p| p.name == t))
    }

    fn signer(&mut self) -> Option<String> {
        if self.taste.leans_to(&[32]) && self.rng.one_in(4) && self.takes(32) {
            return Some("deployer".to_string());
        }
        if self.takes(35) {
            return Some(self.not_state());
        }
        if self.rng.one_in(4) { self.one_of(&self.state_names()) } else { None }
    }

    /// What the entry's Burns clauses name.
    fn burned(&mut self) -> Vec<String> {
        let count = self.rng.below(3);
        let mut burned = Vec::new();
        for _ in 0..count {
            burned.extend(self.one_of(&self.assets.clone()));
        }
        if self.takes(39) {
            burned.push(self.any_word());
        }
        burned
    }

    fn clauses(&mut self, burned: &[String]) -> Vec<Node> {
        let mut clauses: Vec<Node> = burned.iter().map(|b| burns(b)).collect();
        clauses.extend(self.write_clauses());
        let codes = [32, 36, 37, 38];
        for _ in 0..self.count(3, &codes) {
            clauses.extend(self.clause());
        }
        self.rng.shuffle(&mut clauses);
        self.spend(2 * clauses.len());
        clauses
    }

    /// Writes clauses that have what the body writes, but for a temptation.
    fn write_clauses(&mut self) -> Vec<Node> {
        let written = std::mem::take(&mut self.scope.written);
        let mut split = [Vec::new(), Vec::new()];
        for text in written {
            if !self.takes(51) {
                let half = self.rng.below(2);
                split[half].push(name(&text));
            }
        }
        let clauses = split.into_iter().filter(|names| !names.is_empty());
        clauses.map(|names| node(kind::WRITES, names)).collect()
    }

    fn clause(&mut self) -> Option<Node> {
        Some(match self.rng.below(8) {
            0 => self.name_clause(kind::WRITES),
            1 => self.name_clause(kind::READS),
            2 | 3 => {
                let text = if self.takes(37) { self.any_word() } else { self.one_of(&self.known.clone())? };
                conserves(&text)
            }
            4 => {
                let text = if self.takes(38) { self.any_word() } else { self.one_of(&self.assets.clone())? };
                of_asset(kind::MINTS, &text)
            }
            5 => limits(self.expression(2)),
            6 => node(kind::DENIES, vec![self.expression(2)]),
            _ => self.after(),
        })
    }

    fn name_clause(&mut self, kind: u8) -> Node {
        let mut names = Vec::new();
        for _ in 0..self.rng.below(3) {
            names.extend(self.one_of(&self.state_names()));
        }
        if self.takes(36) {
            names.push(self.any_word());
        }
        node(kind, names.iter().map(|n| name(n)).collect())
    }

    fn after(&mut self) -> Node {
        let target = if self.rng.one_in(2) { leaf(kind::DURATION) } else { self.expression(2) };
        let mut parts = vec![target];
        if self.rng.one_in(2) {
            parts.push(self.expression(2));
        }
        node(kind::AFTER, parts)
    }
}

fn is_type(ty: &Node, text: &str) -> bool {
    ty.children[0].text.as_deref() == Some(text)
}
