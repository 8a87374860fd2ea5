//! Request E3, why a lot is refused: at every lot of an image and at places that are none, in buffers that
//! are exact, too large, too short by a word and empty. "Refusals: 1 to 8, 13 when the place is no tracked
//! asset, 10 for a short buffer, in that order."

use super::Asked;
use super::buffers::Expected;
use crate::mismatch::Mismatch;
use crate::why::lengths;
use generate::Rng;
use reference::kind::{LET, PARAM};
use reference::tree::Tree;
use reference::{Lot, why};

/// Images of no more nodes than this are asked about every node, and of the others one in `EVERY`.
const SMALL: usize = 24;
const EVERY: usize = 16;

pub fn reasons(asked: &Asked) -> Result<(), Mismatch> {
    let mut rng = Rng::new(asked.image.iter().fold(0, |sum, byte| sum * 31 % 65_521 + u64::from(*byte)));
    let Ok(judged) = &asked.judged else {
        let places = [0, rng.below(2_048), rng.bits() as usize, usize::MAX];
        return places.into_iter().try_for_each(|place| agree(asked, Err(asked.refused()), place));
    };
    let lots = reference::lots(&judged.tree);
    let mut places: Vec<usize> = lots.iter().map(|lot| lot.place).collect();
    places.extend(far(&judged.tree, &lots, &mut rng));
    if judged.tree.nodes.len() <= SMALL || rng.one_in(EVERY) {
        places.extend(judged.tree.all());
    } else {
        places.extend(near(&judged.tree, &lots, &mut rng));
    }
    places.into_iter().try_for_each(|place| agree(asked, Ok(&lots), place))
}

/// Nodes beside lots: the contract, what stands above and below a lot, what declares a name and is none,
/// and any node.
fn near(tree: &Tree, lots: &[Lot], rng: &mut Rng) -> Vec<usize> {
    let around = lots.iter().flat_map(|lot| [lot.place - 1, lot.place + 1]).collect::<Vec<_>>();
    let declare = |kind| tree.all().filter(move |i| tree.kind(*i) == kind).flat_map(|i| [i, i + 1]);
    let declaring: Vec<usize> = declare(PARAM).chain(declare(LET)).collect();
    let mut one_of = |among: &[usize]| if among.is_empty() { 0 } else { *rng.pick(among) };
    let mut places = vec![0, one_of(&around), one_of(&declaring), one_of(&declaring)];
    places.push(rng.below(tree.nodes.len()));
    places
}

/// Numbers that no node has; cut to 16 or 32 bits two of them would be a lot's, where there is one.
fn far(tree: &Tree, lots: &[Lot], rng: &mut Rng) -> [usize; 5] {
    let place = if lots.is_empty() { 0 } else { rng.pick(lots).place };
    [tree.nodes.len() + rng.below(2), 65_535, (1 << 16) + place, (1 << 32) + place, usize::MAX]
}

/// The library's answer at a place, in buffers of several lengths.
fn agree(asked: &Asked, lots: Result<&[Lot], u8>, place: usize) -> Result<(), Mismatch> {
    let full = why(lots, place, usize::MAX).map_or(0, |words| words.len());
    for length in lengths(full) {
        let answer = why(lots, place, length);
        let expected = match &answer {
            Ok(words) => Expected { result: 0, count: words.len(), written: words },
            Err(refusal) => Expected::refused(usize::from(*refusal)),
        };
        let what = || format!("why at {place} in {length} words");
        expected.agrees(what, length, |buffer| isonkaypu_sys::why(asked.image, place, buffer))?;
    }
    Ok(())
}
