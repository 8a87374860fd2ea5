//! Small contracts by chance: few names, so that they meet in every way; most have a fault or two.

use super::chance::Chance;

/// Names that anything may have.
const NAMES: &[&str] = &["limit", "Limit", "stock", "lot", "to", "part", "deployer", "owner", "limti"];
const ASSETS: &[&str] = &["Morphine", "Ketamine", "Morfine", "QTOV"];
const TYPES: &[&str] =
    &["u64", "Q_Address", "Q_Asset<Morphine>", "Q_Asset<QTOV>", "Map<u64, Q_Asset<Ketamine>>"];
const METHODS: &[&str] =
    &["get", "contains", "split", "set", "merge", "has", "splitt", "Merge", "credit", "tell"];
const FUNCTIONS: &[&str] = &["send", "mint", "mint_asset", "sned", "mint_aset", "tell"];
const EVENTS: &[&str] = &["Issued", "issued", "Isued"];

struct Writer {
    chance: Chance,
}

impl Writer {
    fn pick<'a>(&mut self, list: &[&'a str]) -> &'a str {
        list[self.chance.below(list.len())]
    }

    /// So many of these at most.
    fn some(&mut self, most: usize, between: &str, one: fn(&mut Writer) -> String) -> String {
        let count = self.chance.below(most + 1);
        (0..count).map(|_| one(self)).collect::<Vec<_>>().join(between)
    }

    fn name(&mut self) -> String {
        self.pick(NAMES).to_string()
    }

    fn value(&mut self) -> String {
        match self.chance.below(8) {
            0 => "5".to_string(),
            1 => "caller".to_string(),
            2 => format!("checked({})", self.name()),
            3 => format!("{} + 1", self.name()),
            4 => self.call(),
            _ => self.name(),
        }
    }

    fn call(&mut self) -> String {
        let base = self.name();
        let values = self.some(2, ", ", |w| if w.chance.below(3) == 0 { "5".to_string() } else { w.name() });
        match self.chance.below(3) {
            0 => format!("{}({values})", self.pick(FUNCTIONS)),
            1 => format!("{base}.part.{}({values})", self.pick(METHODS)),
            _ => format!("{base}.{}({values})", self.pick(METHODS)),
        }
    }

    fn statement(&mut self) -> String {
        match self.chance.below(6) {
            0 => format!("let {} = {};", self.name(), self.value()),
            1 => format!("{} = {};", self.name(), self.value()),
            2 => {
                let values = self.some(2, ", ", Writer::value);
                format!("emit {}({values});", self.pick(EVENTS))
            }
            3 => format!("guard {} > {};", self.value(), self.name()),
            _ => format!("{};", self.call()),
        }
    }

    fn parameter(&mut self) -> String {
        let signer =
            if self.chance.below(5) == 0 { format!(" signed_by {}", self.name()) } else { String::new() };
        format!("{}: {}{signer}", self.name(), self.pick(TYPES))
    }

    fn clause(&mut self) -> String {
        match self.chance.below(6) {
            0 => format!("reads {}", self.name()),
            1 => format!("conserves {}", self.pick(ASSETS)),
            2 => format!("mints {}", self.pick(ASSETS)),
            3 => format!("burns {}", self.pick(ASSETS)),
            4 => format!("limits {} > 5", self.name()),
            _ => format!("writes {}, {}", self.name(), self.name()),
        }
    }

    fn entry(&mut self) -> String {
        let parameters = self.some(3, ", ", Writer::parameter);
        let clauses = self.some(2, " ", Writer::clause);
        format!("entry e({parameters}) {clauses} {{ {} }}", self.some(3, " ", Writer::statement))
    }

    fn item(&mut self) -> String {
        match self.chance.below(9) {
            0 => format!("asset {};", self.pick(ASSETS)),
            1 | 2 => format!("state {{ {}: {}; }}", self.name(), self.pick(TYPES)),
            3 => {
                let values = self.some(2, ", ", |_| "v: u64".to_string());
                format!("event {}({values});", self.pick(EVENTS))
            }
            4 => format!("genesis {{ {} }}", self.some(2, " ", Writer::statement)),
            5 => format!("invariant {} > {};", self.name(), self.name()),
            _ => self.entry(),
        }
    }
}

/// The contract of a seed.
pub fn contract(seed: u64) -> String {
    let mut writer = Writer { chance: Chance::new(seed) };
    format!("contract Ward {{ {} }}", writer.some(6, " ", Writer::item))
}
