//! Calls: 34 and 40.

use super::{Advice, Asked};
use crate::edit::{Edit, Way, replace};
use crate::facts::Facts;
use crate::near::nearest;
use form::kind;
use words::Case;

const FUNCTIONS: &[&str] = &["send", "send_asset", "mint", "mint_asset"];
const METHODS: &[&str] = &["get", "contains", "split", "set", "remove", "merge", "insert", "debit", "credit"];

impl Asked<'_> {
    /// 34: a call that the language does not have.
    pub fn no_function(&self) -> Advice {
        let (facts, callee) = (self.facts, self.node() + 1);
        if self.beside(40) {
            return Advice::new(Case::Beside, vec![]);
        }
        let method = facts.method(self.node());
        match (method, facts.tree.kind(callee)) {
            (Some((_, name)), _) if facts.is(name, "has") => {
                Advice::new(Case::Has, vec![vec![replace(name, "contains")]])
            }
            (Some((base, name)), _) => self.near_call(METHODS, name, Some(base)),
            (None, kind::IDENT) => self.near_call(FUNCTIONS, callee, None),
            _ => Advice::new(Case::Plain, vec![]),
        }
    }

    fn near_call(&self, known: &[&str], named: usize, base: Option<usize>) -> Advice {
        let safe = known.iter().filter(|one| self.leaves_lots_alone(one)).map(|one| one.to_string());
        let Some(near) = nearest(&self.facts.text(named), safe) else {
            return Advice::new(Case::Plain, vec![]);
        };
        let write = replace(named, &near);
        match base.and_then(|base| self.needs_writes(&near, base)) {
            None => Advice::new(Case::Near, vec![vec![write]]).with("near", near),
            Some(field) => {
                let names = [field.clone()];
                let writes = self.writes_with(self.entry(), &names, None).join(", ");
                let way =
                    std::iter::once(write).chain(self.with_writes(self.entry(), &names, None)).collect();
                let advice = Advice::new(Case::Changes, vec![way]).with("near", near);
                advice.with("base", field).with("writes", writes)
            }
        }
    }

    /// Whether calling this instead changes nothing for the lots of the entry, and is no 22.
    fn leaves_lots_alone(&self, near: &str) -> bool {
        let (facts, call) = (self.facts, self.node());
        let used = facts.tree.children(call).skip(1).map(|argument| facts.peeled(argument));
        let loses = Facts::is_reading(near) && used.into_iter().any(|ident| self.is_a_lot(ident));
        let makes = ["split", "mint"].contains(&near) && !self.new_lot_is_used_once();
        let one_too_many = near == "mint_asset" && facts.items(kind::ASSET).count() > 1;
        !loses && !makes && !one_too_many
    }

    /// Where the call is the value of a `let`: whether a lot of that name would be used exactly once.
    fn new_lot_is_used_once(&self) -> bool {
        let (facts, entry) = (self.facts, self.entry());
        let of_call = |one: &usize| facts.peeled(one + 2) == self.node();
        let Some(one) = facts.parts(entry, kind::LET).find(of_call) else {
            return true;
        };
        let name = facts.text(one + 1);
        let again = facts.parts(entry, kind::LET).any(|other| facts.is(facts.peeled(other + 2), &name));
        let uses = facts.uses(entry).into_iter().filter(|ident| facts.is(*ident, &name)).count();
        uses == 1 && !again
    }

    /// The state field that the near method would change and that `writes` does not name.
    fn needs_writes(&self, near: &str, base: usize) -> Option<String> {
        let facts = self.facts;
        let root = facts.bottom(base);
        let field = Some(facts.text(root)).filter(|name| facts.field(name).is_some())?;
        let named = self.writes_with(self.entry(), &[], None).contains(&field);
        (Facts::is_changing(near) && self.entry() > 0 && !named).then_some(field)
    }

    /// 40: an address is called.
    pub fn address(&self) -> Advice {
        match self.assigned() {
            Some(way) => Advice::new(Case::Assign, vec![way]),
            None => Advice::new(Case::Plain, self.sent().into_iter().collect()),
        }
    }

    /// `owner.set(to);` as `owner = to;`, where `owner` is a field that the entry writes.
    fn assigned(&self) -> Option<Way> {
        let (facts, call) = (self.facts, self.node());
        let statement = call.checked_sub(1).filter(|s| facts.tree.kind(*s) == kind::STMT_EXPR)?;
        let (base, method) = facts.method(call)?;
        let field = Some(facts.text(base)).filter(|name| facts.field(name).is_some())?;
        let argument = self.only_argument()?;
        let value = match facts.tree.kind(argument) {
            kind::IDENT => facts.text(argument),
            kind::CALLER => "caller".to_string(),
            _ => return None,
        };
        let is_field = facts.tree.kind(base) == kind::IDENT && facts.named_in(self.entry(), &field).is_none();
        let set = is_field && facts.is(method, "set");
        set.then(|| vec![replace(statement, &format!("{field} = {value};"))])
    }

    /// `to.credit(lot);` as `send(to, lot);`.
    fn sent(&self) -> Option<Way> {
        let (facts, call) = (self.facts, self.node());
        let argument = self.only_argument()?;
        let whole = call.checked_sub(1).is_some_and(|s| facts.tree.kind(s) == kind::STMT_EXPR);
        let bottom = facts.bottom(call + 1);
        let caller = facts.tree.kind(bottom) == kind::CALLER;
        let address = if caller { "caller".to_string() } else { facts.text(bottom) };
        let before = Edit::Before { node: argument, text: format!("{address}, ") };
        whole.then(|| vec![replace(call + 1, "send"), before])
    }

    fn only_argument(&self) -> Option<usize> {
        let mut arguments = self.facts.tree.children(self.node()).skip(1);
        let first = arguments.next();
        if arguments.next().is_none() { first } else { None }
    }
}
