//! Statements of entries and of genesis.

use crate::build::*;
use crate::expression::Use;
use crate::maker::{Maker, Site};
use crate::words::*;
use crate::{Node, ident};

impl Maker<'_> {
    pub fn statements(&mut self) -> Vec<Node> {
        let most = if self.room > 300 { 30 } else { 5 };
        let wanted = self.rng.between(usize::from(self.room > 20), most);
        let mut made = Vec::new();
        while made.len() < wanted && (made.is_empty() || self.room > 0) {
            let statement = self.statement();
            self.spend(1);
            made.push(statement);
        }
        made
    }

    fn statement(&mut self) -> Node {
        let wants_locals = self.site == Site::Entry && self.taste.leans_to(&[27, 28, 29, 60]);
        if wants_locals && self.rng.one_in(3) {
            return self.local();
        }
        if self.site == Site::Genesis && self.taste.leans_to(&[33]) && self.rng.one_in(2) {
            return self.assign();
        }
        match self.rng.below(10) {
            0 | 1 => guard(self.expression(3)),
            2..=4 => self.local(),
            5 => self.emit(),
            6 | 7 => self.assign(),
            _ => does(self.call(2)),
        }
    }

    fn local(&mut self) -> Node {
        if self.site == Site::Genesis {
            let text = self.any_word();
            return local(&text, self.expression(2));
        }
        let text = self.local_name();
        let value = self.local_value(&text);
        self.scope.locals.push(text.clone());
        local(&text, value)
    }

    fn local_name(&mut self) -> String {
        let params: Vec<String> = self.scope.params.iter().map(|p| p.name.clone()).collect();
        let tempting = [(27, self.scope.locals.clone()), (28, self.state_names()), (29, params)];
        for (code, names) in tempting {
            if let (true, Some(text)) = (self.takes(code), self.one_of(&names)) {
                return text;
            }
        }
        self.fresh(LOCALS, |m, t| {
            let param = m.scope.params.iter().any(|p| p.name == t);
            m.is_state(t) || param || m.scope.locals.iter().any(|l| l == t)
        })
    }

    fn local_value(&mut self, text: &str) -> Node {
        if let (true, Some(asset)) = (self.takes(60), self.one_of(&self.scope.rows.clone())) {
            return self.wrapped(ident(&asset));
        }
        if self.takes(26) {
            return self.wrapped(ident(text));
        }
        if !self.rng.one_in(3) {
            return self.expression(3);
        }
        let call = self.producing_call();
        self.scope.rows.push(text.to_string());
        self.scope.pending.push(text.to_string());
        self.wrapped(call)
    }

    /// `mint(…)` or `….split(…)`
    fn producing_call(&mut self) -> Node {
        let arguments = self.arguments(1, Use::Peeled);
        if self.rng.one_in(2) {
            return apply("mint", arguments);
        }
        let base = self.method_base(true);
        method(base, "split", arguments)
    }

    fn emit(&mut self) -> Node {
        if self.takes(30) {
            let text = self.fresh(EVENTS, |m, t| m.events.iter().any(|(n, _)| n == t));
            return emit(&text, vec![]);
        }
        if self.events.is_empty() {
            return guard(self.expression(3));
        }
        let (text, mut count) = self.rng.pick(&self.events).clone();
        if self.takes(31) {
            count = if count == 0 || self.rng.one_in(2) { count + 1 } else { count - 1 };
        }
        emit(&text, self.expressions(count, 2, Use::Free))
    }

    fn assign(&mut self) -> Node {
        let target = self.assign_target();
        if self.site == Site::Entry && !self.scope.pending.is_empty() && self.rng.one_in(4) {
            let asset = self.next_pending();
            return assign(target, ident(&asset));
        }
        assign(target, self.expression_for(2, Use::Bare))
    }

    fn assign_target(&mut self) -> Node {
        if self.rng.one_in(6) {
            // no root at all
            let base = self.call(1);
            return self.chain(base);
        }
        let state = self.one_of(&self.state_names()).filter(|_| !self.rng.one_in(4));
        match (self.site, state) {
            (Site::Entry, Some(text)) => {
                self.scope.written.push(text.clone());
                self.chain(ident(&text))
            }
            (Site::Genesis, None) if !self.takes(33) => {
                // an undeclared name that resolve's root does not see
                let text = self.not_state();
                let hidden = checked(ident(&text));
                self.chain(hidden)
            }
            (_, None) => {
                let text = self.not_state();
                self.chain(ident(&text))
            }
            (_, Some(text)) => self.chain(ident(&text)),
        }
    }

    pub fn next_pending(&mut self) -> String {
        let k = self.rng.below(self.scope.pending.len());
        self.scope.pending.swap_remove(k)
    }

    /// One statement for each asset that still wants its use; 61 and 62 are tempting here.
    pub fn last_uses(&mut self) -> Vec<Node> {
        let mut made = Vec::new();
        while !self.scope.pending.is_empty() {
            let asset = self.next_pending();
            if self.takes(61) {
                continue;
            }
            made.push(self.use_of(&asset));
            for _ in 0..2 {
                if self.takes(62) {
                    made.push(self.use_of(&asset));
                }
            }
        }
        made
    }

    fn use_of(&mut self, asset: &str) -> Node {
        self.spend(4);
        let argument = self.wrapped(ident(asset));
        let used = match self.rng.below(4) {
            0 => method(self.method_base(true), "set", vec![argument]),
            1 => {
                let inner = apply("send", vec![argument]);
                method(self.method_base(false), "get", vec![inner])
            }
            _ => apply("send", vec![caller(), argument]),
        };
        if self.rng.one_in(3) { guard(used) } else { does(used) }
    }
}
