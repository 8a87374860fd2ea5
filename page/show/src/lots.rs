//! The lots of a contract and what uses them: the library's answers, asked for when somebody first looks.

use isonkaypu::{Lot, Reason};
use std::cell::OnceCell;

/// The lots of an image.
pub struct Lots<'t> {
    image: &'t [u8],
    asked: OnceCell<Vec<Lot>>,
}

impl<'t> Lots<'t> {
    pub fn of(image: &'t [u8]) -> Lots<'t> {
        Lots { image, asked: OnceCell::new() }
    }

    /// All of them, in the order of the text. An answer that nobody can read says nothing of any lot.
    pub fn all(&self) -> &[Lot] {
        self.asked.get_or_init(|| isonkaypu::lots(self.image).unwrap_or_default())
    }
}

/// The names in the `burns` clauses among the reasons.
pub fn clauses(reasons: &[Reason]) -> impl Iterator<Item = usize> {
    reasons.iter().filter(|reason| reason.consumer().is_none()).map(|reason| reason.place().node)
}

/// The uses in statements among the reasons.
pub fn uses(reasons: &[Reason]) -> impl Iterator<Item = usize> {
    reasons.iter().filter(|reason| reason.consumer().is_some()).map(|reason| reason.place().node)
}

/// Whether a lot with these reasons is used by nothing but the Burns clause with this Name.
pub fn only_burned_by(name: usize, reasons: &[Reason]) -> bool {
    !reasons.is_empty() && uses(reasons).next().is_none() && clauses(reasons).all(|by| by == name)
}
