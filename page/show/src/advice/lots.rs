//! Lots: 60, 61 and 62.

use super::assets::name;
use super::{Advice, Asked};
use crate::edit::{Edit, Way, remove, replace, statement};
use crate::lots::{clauses, only_burned_by, uses};
use form::kind;
use words::Case;

impl Asked<'_> {
    /// 60: a lot gets a second name.
    pub fn second_name(&self) -> Advice {
        let (facts, entry, one) = (self.facts, self.entry(), self.node());
        let tree = facts.tree;
        let lot = facts.text(facts.peeled(one + 2));
        let uses = facts.uses(entry).into_iter();
        let second: Vec<usize> = uses.filter(|one| facts.is(*one, self.name())).collect();
        let used = facts.lots(entry).rfind(|one| name(one) == lot).is_some_and(|one| !one.reasons.is_empty());
        if used && !second.is_empty() {
            let out = self.statements_out(&second);
            let way = out.map(|out| std::iter::once(remove(one)).chain(out).collect());
            return Advice::new(Case::Both, way.into_iter().collect());
        }
        let named = (tree.end(one)..tree.end(entry)).filter(|n| tree.kind(*n) == kind::IDENT);
        let renamed = named.filter(|n| facts.is(*n, self.name())).map(|n| replace(n, &lot));
        Advice::new(Case::Plain, vec![std::iter::once(remove(one)).chain(renamed).collect()])
    }

    /// The statements of these uses out, where each is a call or an assignment that uses no other lot.
    fn statements_out(&self, uses: &[usize]) -> Option<Vec<Edit>> {
        let facts = self.facts;
        let mut statements: Vec<usize> = uses.iter().filter_map(|one| facts.statement_of(*one)).collect();
        statements.dedup();
        let free = |statement: &usize| {
            let plain = matches!(facts.tree.kind(*statement), kind::STMT_EXPR | kind::ASSIGN);
            let inside = facts.uses_in(*statement..facts.tree.end(*statement));
            plain && inside.iter().all(|one| uses.contains(one) || !self.is_a_lot(*one))
        };
        statements.iter().all(free).then(|| statements.iter().map(|s| remove(*s)).collect())
    }

    /// 61: a lot is never used.
    pub fn never_used(&self) -> Advice {
        let (facts, entry) = (self.facts, self.entry());
        if facts.namesakes(entry, self.name()) > 1 {
            return Advice::new(Case::First, vec![]);
        }
        if let Some(second) = self.used_as() {
            return Advice::new(Case::Beside, vec![]).with("second", second);
        }
        let to = self.addressee(entry);
        if self.name() == "deployer" {
            let fresh = facts.fresh("deployer");
            let named = self.parameter().map_or(self.node(), |param| param) + 1;
            let send = statement(entry, format!("send({to}, {fresh});"));
            let way = vec![replace(named, &fresh), send];
            return Advice::new(Case::Deployer, vec![way]).with("to", to).with("fresh", fresh);
        }
        let sent = vec![statement(entry, format!("send({to}, {});", self.name()))];
        let ways = std::iter::once(sent).chain(self.stored_lot());
        match self.burnable() {
            Some(asset) => {
                let burns = vec![Edit::Clause { entry, text: format!("burns {asset}") }];
                Advice::new(Case::Burn, ways.chain([burns]).collect()).with("to", to).with("asset", asset)
            }
            None => Advice::new(Case::Plain, ways.collect()).with("to", to),
        }
    }

    /// The second name of the lot, where it is used by that.
    fn used_as(&self) -> Option<String> {
        let (facts, entry) = (self.facts, self.entry());
        let inside = entry..facts.tree.end(entry);
        let here = self.offences.iter().filter(|o| o.code == 60 && inside.contains(&o.place.node));
        let of_this = here.filter(|o| facts.is(facts.peeled(o.place.node + 2), self.name()));
        let mut names = of_this.filter_map(|offence| offence.name.clone());
        names.find(|name| facts.uses(entry).iter().any(|one| facts.is(*one, name)))
    }

    /// The lot merged into a state field of its asset, which `writes` names.
    fn stored_lot(&self) -> Option<Way> {
        let (facts, entry) = (self.facts, self.entry());
        let asset = facts.text(facts.asset_of(self.parameter()?)?);
        let holds = |field: &usize| facts.asset_of(*field).is_some_and(|other| facts.is(other, &asset));
        let mut names = facts.fields().map(|field| facts.text(field + 1));
        let plain = |name: &String| name != "deployer" && facts.named_in(entry, name).is_none();
        let field = names.find(|name| plain(name) && facts.field(name).as_ref().is_some_and(holds))?;
        let stored = statement(entry, format!("{field}.merge({});", self.name()));
        let named = self.writes_with(entry, &[], None).contains(&field);
        let writes = if named { vec![] } else { self.with_writes(entry, &[field], None) };
        Some(std::iter::once(stored).chain(writes).collect())
    }

    /// The Param whose Name the offence stands at.
    fn parameter(&self) -> Option<usize> {
        self.facts.above(self.node()).filter(|above| self.facts.tree.kind(*above) == kind::PARAM)
    }

    /// The asset of the lot, where a `burns` clause with it would use the lot up and harm no other: the
    /// lot is a parameter, the asset is declared, and no other lot of it is used.
    fn burnable(&self) -> Option<String> {
        let (facts, entry) = (self.facts, self.entry());
        let asset = facts.text(facts.asset_of(self.parameter()?)?);
        let declared = facts.items(kind::ASSET).any(|item| facts.is(item + 1, &asset));
        let same = |param: &usize| facts.asset_of(*param).is_some_and(|other| facts.is(other, &asset));
        let lots: Vec<usize> = facts.parts(entry, kind::PARAM).filter(same).collect();
        let is_lot = |one: &usize| lots.iter().any(|lot| facts.tree.text(lot + 1) == facts.tree.text(*one));
        let unused = !facts.uses(entry).iter().any(is_lot);
        (declared && unused).then_some(asset)
    }

    /// 62: a lot is used more than once.
    pub fn used_twice(&self) -> Advice {
        let (facts, entry) = (self.facts, self.entry());
        if facts.namesakes(entry, self.name()) > 1 {
            return Advice::new(Case::First, vec![]);
        }
        let reasons = self.offence.reasons.as_deref().unwrap_or_default();
        let uses: Vec<usize> = uses(reasons).collect();
        // with one thing of its name there is one clause at most
        let Some(clause) = clauses(reasons).next() else {
            return Advice::new(Case::Plain, self.first_use_alone(&uses).into_iter().collect());
        };
        let asset = facts.text(clause);
        let clause_alone = self.statements_out(&uses);
        if let Some(other) = self.needing(clause) {
            let advice = Advice::new(Case::Needed, clause_alone.into_iter().collect());
            return advice.with("asset", asset).with("other", other);
        }
        let first_alone = self.first_use_alone(&uses).map(|out| [self.burns_out(&asset), out].concat());
        let ways = first_alone.into_iter().chain(clause_alone).collect();
        Advice::new(Case::Burned, ways).with("asset", asset)
    }

    /// The statements of the later uses out, where the first use stands in another one.
    fn first_use_alone(&self, uses: &[usize]) -> Option<Way> {
        let (first, later) = uses.split_first()?;
        let kept = self.facts.statement_of(*first);
        let apart = later.iter().all(|one| self.facts.statement_of(*one) != kept);
        self.statements_out(later).filter(|_| apart)
    }

    /// Another lot of the entry that needs the Burns clause with this Name: nothing else uses it.
    fn needing(&self, clause: usize) -> Option<String> {
        let (facts, entry) = (self.facts, self.entry());
        let mut others = facts.lots(entry).filter(|lot| lot.place.node != self.node());
        others.find(|lot| only_burned_by(clause, &lot.reasons)).map(|lot| name(lot).to_string())
    }

    /// Every Burns clause of this asset out.
    fn burns_out(&self, asset: &str) -> Way {
        let clauses = self.facts.parts(self.entry(), kind::BURNS);
        clauses.filter(|clause| self.facts.is(clause + 1, asset)).map(remove).collect()
    }
}
