//! What a generated contract leans to. A contract is clean, so that every pass accepts it, except
//! where it is tempted: then an offence of a code may stand wherever that code has an occasion.
//! Since few codes are tempted at a time, each code is often the first of its pass.

use crate::rng::Rng;

/// The codes of document 01's offences.
pub const CODES: [u16; 26] =
    [20, 21, 22, 23, 24, 25, 26, 27, 28, 29, 30, 31, 32, 33, 34, 35, 36, 37, 38, 39, 40, 50, 51, 60, 61, 62];

pub struct Taste {
    tempted: [bool; 64],
    /// A tempted occasion is taken once in so many times.
    odds: usize,
    /// How many nodes to aim for.
    pub size: usize,
    /// Declarations may take the rules' own words as names.
    pub wordy: bool,
    /// Expressions and types go down far.
    pub deep: bool,
}

impl Taste {
    pub fn draw(rng: &mut Rng) -> Taste {
        let (count, odds) = match rng.below(20) {
            0..=2 => (0, 1),
            3..=11 => (1, rng.between(1, 3)),
            12..=16 => (rng.between(2, 4), 4),
            _ => (CODES.len(), rng.between(6, 16)),
        };
        let mut tempted = [count == CODES.len(); 64];
        for _ in 0..count {
            tempted[*rng.pick(&CODES) as usize] = true;
        }
        Taste { tempted, odds, size: size(rng), wordy: rng.one_in(8), deep: rng.one_in(40) }
    }

    pub fn leans_to(&self, codes: &[u16]) -> bool {
        codes.iter().any(|c| self.tempted[*c as usize])
    }

    /// Whether this occasion for a code is taken.
    pub fn takes(&self, rng: &mut Rng, code: u16) -> bool {
        self.tempted[code as usize] && rng.one_in(self.odds)
    }
}

/// Mostly small, so that a mismatch is near at hand; now and then up to the limit.
fn size(rng: &mut Rng) -> usize {
    match rng.below(400) {
        0 => rng.between(1_000, 2_040),
        1..=8 => rng.between(200, 600),
        9..=100 => rng.between(5, 30),
        _ => rng.between(30, 120),
    }
}
