//! `deployer` where nobody knows it: 32.

use super::{Advice, Asked};
use crate::edit::{Way, item, remove, replace};
use form::kind;
use words::Case;

impl Asked<'_> {
    pub fn deployer(&self) -> Advice {
        if let Some((taken, way, fresh)) = self.own_deployer() {
            return Advice::new(Case::Taken, vec![way]).with("taken", taken).with("fresh", fresh);
        }
        if self.is_called_or_changed() {
            let statement = self.facts.statement_of(self.node()).unwrap_or(0);
            let plain = matches!(self.facts.tree.kind(statement), kind::STMT_EXPR | kind::ASSIGN);
            let uses = self.facts.uses_in(statement..self.facts.tree.end(statement));
            let free = plain && uses.iter().all(|one| !self.is_a_lot(*one));
            return Advice::new(Case::Called, free.then(|| vec![remove(statement)]).into_iter().collect());
        }
        if let Some(stored) = self.stored() {
            return Advice::new(Case::Stored, vec![vec![replace(self.node(), &stored)]])
                .with("stored", stored);
        }
        let owner = self.facts.fresh_or("owner");
        let field = item(format!("state {{ {owner}: Q_Address; }}"));
        let genesis = item(format!("genesis {{ {owner} = deployer; }}"));
        let way = vec![field, genesis, replace(self.node(), &owner)];
        Advice::new(Case::Plain, vec![way]).with("owner", owner)
    }

    /// What of the contract has the name `deployer`: the parameter or `let` of this entry, or a state field;
    /// with the way to rename it, and the new name.
    fn own_deployer(&self) -> Option<(String, Way, String)> {
        let (facts, entry, name) = (self.facts, self.entry(), "deployer");
        let fresh = facts.fresh(name);
        let all =
            |nodes: std::ops::Range<usize>| nodes.filter(|node| facts.is(*node, name)).collect::<Vec<_>>();
        let local = facts.named_in(entry, name).filter(|_| entry > 0);
        let (taken, nodes) = match (local, facts.field(name)) {
            (Some(part), None) => {
                let word = if facts.tree.kind(part) == kind::PARAM { "the parameter" } else { "the `let`" };
                (word, all(entry..facts.tree.end(entry)))
            }
            (_, Some(_)) => ("the state field", all(facts.tree.all())),
            (None, None) => return None,
        };
        let way = nodes.into_iter().map(|node| replace(node, &fresh)).collect();
        Some((format!("{taken} `{name}`"), way, fresh))
    }

    /// Whether `deployer` is called, or assigned to, or changed by a method.
    fn is_called_or_changed(&self) -> bool {
        let (facts, tree) = (self.facts, self.facts.tree);
        let mut above = tree.above(self.node()).take_while(|node| !kind::is_item(tree.kind(*node)));
        above.any(|node| {
            let called = tree.kind(node) == kind::CALL && facts.bottom(node + 1) == self.node();
            called || facts.changed(node) == Some(self.node())
        })
    }

    /// A state field that genesis stores `deployer` in.
    fn stored(&self) -> Option<String> {
        let facts = self.facts;
        let assigns = facts.items(kind::GENESIS).flat_map(|genesis| facts.parts(genesis, kind::ASSIGN));
        let mut to_a_name = assigns.filter(|assign| facts.tree.kind(assign + 1) == kind::IDENT);
        let stored = to_a_name.find(|assign| facts.is(assign + 2, "deployer"))?;
        Some(facts.text(stored + 1)).filter(|name| facts.field(name).is_some())
    }
}
