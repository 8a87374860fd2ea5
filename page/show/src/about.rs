//! What a report says of itself: who made it, what was looked at, and what was not.

use crate::Subject;
use isonkaypu::Pass;

pub const TOOL: &str = "isonkaypu";
pub const VERSION: &str = env!("CARGO_PKG_VERSION");

/// How many digits of the library's sum people are shown.
const SHOWN: usize = 12;

/// The proved library that decided, as people are shown it: the first digits of what it was made from.
pub fn library() -> &'static str {
    isonkaypu::library().get(..SHOWN).unwrap_or(isonkaypu::library())
}

/// Who says so: the program, its version, and the proved library that decided.
pub fn made_by() -> String {
    format!("{TOOL} {VERSION}, library {}", library())
}

/// Something that was looked at, or was not: what it is called for people, and what that means.
#[derive(Clone, Copy)]
pub struct Claim {
    pub word: &'static str,
    pub means: &'static str,
}

/// The three checks with their passes, in the order in which they run.
fn checks() -> impl Iterator<Item = (Pass, Claim)> {
    let claim = |term: &'static words::Term| Claim { word: &term.word, means: &term.means };
    Pass::ALL.iter().copied().zip(words::checks().iter().map(claim))
}

/// The checks that ran: all three, or none where the image could not be read.
pub fn checked(subject: &Subject) -> Vec<(Pass, Claim)> {
    checks().filter(|_| subject.report().is_some()).collect()
}

/// What nobody may take for checked: what no rule looks at, and the three checks where none ran.
pub fn not_checked(subject: &Subject) -> Vec<Claim> {
    let missed = checks().filter(|_| subject.report().is_none()).map(|(_, claim)| claim);
    let gaps = words::gaps().iter().map(|gap| Claim { word: &gap.word, means: &gap.means });
    missed.chain(gaps).collect()
}

/// What people call a pass.
pub fn word(pass: Pass) -> &'static str {
    checks().find(|(of, _)| *of == pass).map_or("", |(_, claim)| claim.word)
}

/// A sentence with a capital letter at its beginning.
pub fn capital(text: &str) -> String {
    let mut chars = text.chars();
    let first = chars.next().map(|c| c.to_uppercase().to_string()).unwrap_or_default();
    first + chars.as_str()
}

#[cfg(test)]
mod tests {
    use super::*;

    #[test]
    fn every_pass_has_its_check() {
        assert_eq!(checks().map(|(pass, _)| pass).collect::<Vec<_>>(), Pass::ALL);
        assert!(Pass::ALL.iter().map(|pass| word(*pass)).eq(words::CHECKS));
    }
}
