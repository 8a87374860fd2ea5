//! Trees by the table of children alone, over a handful of names that every role shares: dense in
//! offences of all kinds, with no notion of what a rule wants.

use crate::build::*;
use crate::rng::Rng;
use crate::words::*;
use crate::{Node, ident, leaf, name, node, number};
use form::kind;

pub struct Wild<'r> {
    rng: &'r mut Rng,
    names: Vec<String>,
    room: usize,
}

impl<'r> Wild<'r> {
    pub fn new(rng: &'r mut Rng) -> Wild<'r> {
        let pools = [RULE_WORDS, RULE_WORDS, NEAR_WORDS, FIELDS, PARAMS, ASSETS];
        let count = rng.between(2, 9);
        let pick = |_| {
            let pool = *rng.pick(&pools);
            rng.word(pool).to_string()
        };
        let names = (0..count).map(pick).collect();
        let room = rng.between(5, 150);
        Wild { rng, names, room }
    }

    fn text(&mut self) -> String {
        self.rng.pick(&self.names).clone()
    }

    fn name(&mut self) -> Node {
        name(&self.text())
    }

    fn some(&mut self, most: usize, make: fn(&mut Self) -> Node) -> Vec<Node> {
        let count = if self.room == 0 { 0 } else { self.rng.between(0, most) };
        (0..count).map(|_| make(self)).collect()
    }

    pub fn contract(mut self) -> Node {
        let text = self.text();
        let mut items = Vec::new();
        while self.room > 0 {
            self.room -= 1;
            items.push(self.item());
        }
        contract(&text, items)
    }

    fn item(&mut self) -> Node {
        let text = self.text();
        match self.rng.below(8) {
            0 => asset(&text),
            1 | 2 => state(self.some(3, Self::field)),
            3 => event(&text, self.rng.below(3)),
            4 => genesis(self.some(3, Self::statement)),
            5 => invariant(self.expression()),
            _ => {
                let mut parts = self.some(3, Self::param);
                parts.extend(self.some(3, Self::clause));
                parts.extend(self.some(4, Self::statement));
                entry(&text, parts)
            }
        }
    }

    fn field(&mut self) -> Node {
        let mut parts = vec![self.name(), self.ty()];
        if self.rng.one_in(4) {
            parts.push(self.expression());
        }
        node(kind::FIELD_DECL, parts)
    }

    fn param(&mut self) -> Node {
        let mut parts = vec![self.name(), self.ty()];
        if self.rng.one_in(4) {
            parts.push(self.name());
        }
        node(kind::PARAM, parts)
    }

    fn ty(&mut self) -> Node {
        self.room = self.room.saturating_sub(2);
        let text = match self.rng.below(4) {
            0 => "Q_Asset".to_string(),
            1 => "Q_Address".to_string(),
            _ => self.text(),
        };
        ty_of(&text, self.some(2, Self::type_argument))
    }

    fn type_argument(&mut self) -> Node {
        match self.rng.below(5) {
            0 => number(self.rng.word(NUMBERS)),
            1 => m_of_n(self.rng.word(NUMBERS), self.rng.word(NUMBERS)),
            _ => self.ty(),
        }
    }

    fn clause(&mut self) -> Node {
        self.room = self.room.saturating_sub(2);
        let text = self.text();
        match self.rng.between(kind::WRITES as usize, kind::AFTER as usize) as u8 {
            kind @ (kind::WRITES | kind::READS) => node(kind, self.some(3, Self::name)),
            kind @ (kind::LIMITS | kind::DENIES) => node(kind, vec![self.expression()]),
            kind::AFTER => {
                let target = if self.rng.one_in(2) { leaf(kind::DURATION) } else { self.expression() };
                let from = self.some(1, Self::expression);
                node(kind::AFTER, std::iter::once(target).chain(from).collect())
            }
            kind => of_asset(kind, &text),
        }
    }

    fn statement(&mut self) -> Node {
        self.room = self.room.saturating_sub(1);
        let text = self.text();
        match self.rng.below(5) {
            0 => guard(self.expression()),
            1 => local(&text, self.expression()),
            2 => emit(&text, self.some(2, Self::expression)),
            3 => assign(self.expression(), self.expression()),
            _ => does(self.expression()),
        }
    }

    fn expression(&mut self) -> Node {
        let kind = self.rng.between(kind::INT as usize, kind::WRAPPING as usize + 8) as u8;
        if self.room == 0 {
            return ident(&self.text());
        }
        self.room -= 1;
        let text = self.text();
        match kind {
            kind::UNARY | kind::CHECKED | kind::WRAPPING => node(kind, vec![self.expression()]),
            kind::BINARY => binary(self.expression(), self.expression()),
            kind::FIELD => field(self.expression(), &text),
            46..=49 => method(self.expression(), &text, self.some(2, Self::expression)),
            kind::CALL => call(self.expression(), self.some(2, Self::expression)),
            kind::INT..=kind::NOW if kind != kind::IDENT => leaf(kind),
            _ => ident(&text),
        }
    }
}
