//! Assets: 22, 37, 38 and 39.

use super::{Advice, Asked};
use crate::edit::{Way, item, remove, replace, statement};
use crate::lots::{only_burned_by, uses};
use crate::near::nearest;
use form::kind;
use isonkaypu::Lot;
use words::Case;

impl Asked<'_> {
    /// 22: `mint_asset` with more than one asset.
    pub fn two_assets(&self) -> Advice {
        let facts = self.facts;
        let assets: Vec<usize> = facts.items(kind::ASSET).collect();
        let first = assets.first().map_or(String::new(), |asset| facts.text(asset + 1));
        if assets.iter().all(|asset| facts.is(asset + 1, &first)) {
            let way = assets.iter().skip(1).map(|asset| remove(*asset)).collect();
            return Advice::new(Case::Twice, vec![way]).with("asset", first);
        }
        // the call out, where it is a statement and nothing is lost with it
        let statement = facts.statement_of(self.node()).filter(|s| s + 1 == self.node());
        let free =
            statement.filter(|s| facts.uses_in(*s..facts.tree.end(*s)).iter().all(|u| !self.is_a_lot(*u)));
        Advice::new(Case::Plain, free.map(|s| vec![remove(s)]).into_iter().collect())
    }

    /// Whether an Ident names a lot of the entry.
    pub fn is_a_lot(&self, ident: usize) -> bool {
        self.facts.lots(self.entry()).any(|lot| self.facts.is(ident, name(lot)))
    }

    /// 37, 38, 39: an asset that is not known, or not declared.
    pub fn no_asset(&self) -> Advice {
        let facts = self.facts;
        let code = self.offence.code;
        let clause = facts.above(self.node()).unwrap_or(0);
        let declared = || facts.items(kind::ASSET).map(|asset| facts.text(asset + 1));
        let out = || vec![self.without_the_clause(clause)];
        if code != 37 && self.name() == "QTOV" {
            return Advice::new(Case::Qtov, out());
        }
        let known = if code == 37 { facts.known_assets() } else { declared().collect() };
        let near =
            nearest(self.name(), known).filter(|near| code != 39 || self.burning_changes_nothing(near));
        if let Some(near) = near {
            return Advice::new(Case::Near, vec![vec![replace(self.node(), &near)]]).with("near", near);
        }
        match declared().next().filter(|_| self.calls_mint_asset()) {
            Some(asset) => {
                let named = (code != 39).then(|| vec![replace(self.node(), &asset)]);
                let ways = named.into_iter().chain(out()).collect();
                Advice::new(Case::Single, ways).with("asset", asset)
            }
            None => Advice::new(Case::Plain, vec![vec![item(format!("asset {};", self.name()))]]),
        }
    }

    fn calls_mint_asset(&self) -> bool {
        let tree = self.facts.tree;
        let bodies = self.facts.items(kind::ENTRY).chain(self.facts.items(kind::GENESIS));
        let mut calls = bodies.flat_map(|b| b..tree.end(b)).filter(|node| tree.kind(*node) == kind::CALL);
        calls.any(|call| tree.kind(call + 1) == kind::IDENT && self.facts.is(call + 1, "mint_asset"))
    }

    /// Whether `burns` with another asset leaves every lot of the entry with as many uses.
    fn burning_changes_nothing(&self, near: &str) -> bool {
        let (facts, entry) = (self.facts, self.entry());
        let lots = facts.parts(entry, kind::PARAM).filter_map(|param| facts.asset_of(param));
        let either = |asset: &usize| facts.is(*asset, near) || facts.is(*asset, self.name());
        let touched: Vec<usize> = lots.filter(either).collect();
        let unused = |asset: &usize| {
            let param = facts.tree.above(*asset).find(|p| facts.tree.kind(*p) == kind::PARAM).unwrap_or(0);
            let mut lots = facts.lots(entry).filter(|lot| lot.place.node == param + 1);
            lots.all(|lot| uses(&lot.reasons).next().is_none()) && facts.is(*asset, near)
        };
        touched.iter().all(unused)
    }

    /// The clause out, and the lots that it used up sent to somebody.
    fn without_the_clause(&self, clause: usize) -> Way {
        let (facts, entry) = (self.facts, self.entry());
        let burns = facts.tree.kind(clause) == kind::BURNS;
        let left = |lot: &&Lot| burns && only_burned_by(clause + 1, &lot.reasons);
        let lots = facts.lots(entry).filter(left);
        std::iter::once(remove(clause)).chain(lots.flat_map(|lot| self.sent_lot(entry, lot))).collect()
    }

    /// The lot sent to somebody; one that is called `deployer`, under another name.
    fn sent_lot(&self, entry: usize, lot: &Lot) -> Way {
        let to = self.addressee(entry);
        if name(lot) != "deployer" {
            return vec![statement(entry, format!("send({to}, {});", name(lot)))];
        }
        let fresh = self.facts.fresh(name(lot));
        vec![replace(lot.place.node, &fresh), statement(entry, format!("send({to}, {fresh});"))]
    }

    /// Somebody in this entry that a lot can be sent to: an address whose name nothing else has here.
    pub fn addressee(&self, entry: usize) -> String {
        let facts = self.facts;
        let param = facts.parts(entry, kind::PARAM).map(|param| (param, 1));
        let fields = facts.fields().filter(|field| facts.field(&facts.text(field + 1)) == Some(*field));
        let mut addresses = param.chain(fields.map(|field| (field, 0)));
        let found = addresses.find(|(declared, namesakes)| {
            let name = facts.text(declared + 1);
            let plain = name != "deployer" && facts.namesakes(entry, &name) == *namesakes;
            plain && facts.is_of_type(*declared, "Q_Address")
        });
        found.map_or("caller".to_string(), |(declared, _)| facts.text(declared + 1))
    }
}

/// What a lot is called: every lot has a name.
pub fn name(lot: &Lot) -> &str {
    lot.name.as_deref().unwrap_or_default()
}
