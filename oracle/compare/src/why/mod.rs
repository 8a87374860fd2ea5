//! `compare why`: request E3 without the library. What is written by hand; on every image the reasons of
//! every place found in two ways; and what must hold between these and the list.

mod places;

use crate::images::{Range, half_crowded};
use crate::mismatch::{Mismatch, differ, same, shown};
use crate::tally::outcome;
use form::Tree;
use generate::Rng;
use generate::patterns::{Explained, most_reasons, reasons};
use places::Places;
use reference::{Judged, Lot, Pass, Reason};

/// Runs the comparison; the text is what to print, and an `Err` is a failure.
pub fn run(range: Range) -> Result<String, String> {
    for case in reasons() {
        explained(&case).map_err(|m| format!("mismatch on {}: {}\n", case.name, said(&m)))?;
    }
    for (name, tree, entries) in most_reasons() {
        counted(&tree, entries).map_err(|m| format!("mismatch on {name}: {}\n", said(&m)))?;
    }
    let mut seen = Seen::default();
    for (label, image) in half_crowded(range) {
        // the limits by hand stand on both sides
        if reference::refusal(&image) == 0 {
            agree(&image, &mut seen)
                .map_err(|_| shown(&label, &image, &|i| agree(i, &mut Seen::default())))?;
        }
    }
    seen.finish()
}

fn said(Mismatch { what, reference, other }: &Mismatch) -> String {
    format!("{what}: by hand {reference}, got {other}")
}

/// Room for the entries of any lot: two words for each node.
const ROOM: usize = 4_096;

/// The lots of an image, or its refusal.
fn lots(image: &[u8]) -> Result<Vec<Lot>, u8> {
    reference::admit(image).map(|tree| reference::lots(&tree))
}

/// What is written by hand of places of a contract.
fn explained(case: &Explained) -> Result<(), Mismatch> {
    let lots = lots(&case.tree.image());
    for (place, entries) in case.answers() {
        let words = entries.map_or(Err(13), |entries| Ok(entries.concat()));
        let found = reference::why(lots.as_deref().map_err(|refusal| *refusal), place, ROOM);
        same(&format!("the entries at {place}"), words, found)?;
    }
    Ok(())
}

/// How many entries the lot that is marked has.
fn counted(tree: &generate::Node, entries: usize) -> Result<(), Mismatch> {
    let (lots, place) = (lots(&tree.image()), tree.place('x'));
    let found = reference::why(lots.as_deref().map_err(|refusal| *refusal), place.unwrap_or(0), ROOM);
    same("how many words", Ok(2 * entries), found.map(|words| words.len()))
}

/// Whether all holds on an admitted image; what it showed is noted.
fn agree(image: &[u8], seen: &mut Seen) -> Result<(), Mismatch> {
    let no_tree = || differ("the image", "admitted", "the tree of none");
    let tree = Tree::of(image).ok_or_else(no_tree)?;
    let judged = reference::judge(image).map_err(|_| no_tree())?;
    let (lots, places) = (reference::lots(&judged.tree), Places::of(&tree));
    for place in numbers(&tree) {
        let found = places.reasons(place);
        answers(&lots, place, found.as_deref())?;
        if let Some(reasons) = found {
            said_in_list(&judged, place, &reasons)?;
            seen.note(&places, place, &reasons);
        }
    }
    seen.images += 1;
    Ok(())
}

/// Every node's number, and numbers that no node has.
fn numbers(tree: &Tree) -> impl Iterator<Item = usize> {
    let far = Rng::new(tree.len() as u64).bits() as usize;
    (0..tree.len() + 2).chain([65_535, 65_536 + far % tree.len(), far | 1 << 16, usize::MAX])
}

/// The plain reading's answer at a place against what was found, in buffers of several lengths: "13 when
/// the place is no tracked asset, 10 for a short buffer, in that order".
fn answers(lots: &[Lot], place: usize, found: Option<&[Reason]>) -> Result<(), Mismatch> {
    let words = found.map(|reasons| reasons.iter().flat_map(|reason| reason.words()).collect::<Vec<u16>>());
    for room in lengths(words.as_ref().map_or(0, Vec::len)) {
        let expected = match &words {
            None => Err(13),
            Some(words) if room < words.len() => Err(10),
            Some(words) => Ok(words.clone()),
        };
        let answer = reference::why(Ok(lots), place, room);
        same("place, room and the entries", (place, room, answer), (place, room, expected))?;
    }
    Ok(())
}

/// The lengths of buffers for so many words: none, one too few, exact, and with room to spare.
pub fn lengths(words: usize) -> Vec<usize> {
    let mut lengths = vec![0, words.saturating_sub(1), words, words + 7];
    lengths.dedup();
    lengths
}

/// "the number of entries equals the row's marks plus occurrences, so 61 has none and 62 at least two"; and
/// related, where 62 has one, is a use among them. A row of two marks is not the last of its name, so that
/// it has no use.
fn said_in_list(judged: &Judged, place: usize, reasons: &[Reason]) -> Result<(), Mismatch> {
    let of_place = |r: &&reference::Record| usize::from(r.place) == place && [61, 62].contains(&r.code);
    let record = judged.part(Pass::Linear).iter().find(of_place);
    let code = [61, 0].get(reasons.len()).copied().unwrap_or(62);
    same("the lot's place and code", (place, record.map_or(0, |r| r.code)), (place, code))?;
    let uses = reasons.iter().filter(|reason| matches!(reason, Reason::Used(_)));
    let related = record.map_or(0, |r| r.related);
    let is_a_use = uses.clone().any(|used| used.words()[0] == related);
    same("the lot's place, and whether related is a use", (place, related != 0), (place, is_a_use))?;
    let two_marks = reasons.len() - uses.clone().count() > 1;
    same("the lot's place, and two marks with a use", (place, false), (place, two_marks && uses.count() > 0))
}

/// How many images and lots there were, and how many of the lots show what a simpler reading would miss.
#[derive(Default)]
struct Seen {
    images: u64,
    lots: u64,
    shown: [u64; SHOWN.len()],
}

/// What lots are counted for, in the order of `Seen::shown`.
const SHOWN: [&str; 6] = [
    "of a name that has other lots",
    "with a mark that a later clause would give too",
    "with two marks or more",
    "with marks whose clauses stand the other way round",
    "with a mark and a use",
    "with two uses or more",
];

impl Seen {
    fn note(&mut self, places: &Places, place: usize, reasons: &[Reason]) {
        let first = |reason: &Reason| reason.words()[0];
        let (marks, uses): (Vec<Reason>, Vec<Reason>) =
            reasons.iter().partition(|reason| matches!(reason, Reason::Burned(_)));
        let mut burned = places.namesakes(place);
        let shows = [
            places.namesakes(place).count() > 1,
            !marks.is_empty() && burned.any(|name| places.clauses(name).count() > 1),
            marks.len() > 1,
            marks.windows(2).any(|pair| first(&pair[1]) < first(&pair[0])),
            !marks.is_empty() && !uses.is_empty(),
            uses.len() > 1,
        ];
        self.lots += 1;
        for (count, shows) in self.shown.iter_mut().zip(shows) {
            *count += u64::from(shows);
        }
    }

    /// A lot to each image is wanted, and one in 300 of the lots that shows each.
    fn finish(&self) -> Result<String, String> {
        let Seen { images, lots, shown } = *self;
        let counts = SHOWN.iter().zip(shown);
        let listed: Vec<String> = counts.clone().map(|(what, count)| format!("{count} {what}")).collect();
        let shown = counts.map(|(what, count)| (format!("lots {what}"), count, lots / 300));
        let wanted = std::iter::once(("lots".to_string(), lots, images)).chain(shown);
        outcome(format!("{images} images, {lots} lots, {}: ", listed.join(", ")), wanted)
    }
}

#[cfg(test)]
mod tests {
    use super::*;

    #[test]
    fn what_is_written_by_hand_holds() {
        for case in reasons() {
            assert_eq!(reference::refusal(&case.tree.image()), 0, "{}", case.name);
            assert_eq!(explained(&case).err().map(|m| said(&m)), None, "{}", case.name);
        }
        for (name, tree, entries) in most_reasons() {
            assert_eq!(counted(&tree, entries).err().map(|m| said(&m)), None, "{name}");
        }
    }

    /// "Refusals: 1 to 8, 13 when the place is no tracked asset, 10 for a short buffer, in that order."
    #[test]
    fn refusals_come_in_their_order() {
        let explained = reasons().into_iter().find(|case| case.name == "P9, burned and sent");
        let tree = explained.expect("a case of that name").tree;
        let (lots, place) = (lots(&tree.image()).expect("admitted"), tree.place('x').expect("marked"));
        let ask = |place, room| reference::why(Ok(&lots), place, room);
        for refusal in 1..=8 {
            assert_eq!(reference::why(Err(refusal), usize::MAX, 0), Err(refusal));
        }
        for other in [0, place - 1, place + 1, tree.size(), 65_535, 65_536 + place, usize::MAX] {
            assert_eq!((ask(other, 0), ask(other, ROOM)), (Err(13), Err(13)), "{other}");
        }
        assert_eq!([0, 1, 2, 3].map(|room| ask(place, room)), [const { Err(10) }; 4]);
        assert_eq!(ask(place, 4).map(|words| words.len()), Ok(4));
    }

    #[test]
    fn too_few_of_any_are_a_failure() {
        let all = || Seen { images: 100, lots: 600, shown: [2; SHOWN.len()] };
        assert!(all().finish().is_ok());
        assert!(Seen { images: 601, ..all() }.finish().is_err());
        for k in 0..SHOWN.len() {
            let mut seen = all();
            seen.shown[k] = 1;
            assert!(seen.finish().is_err());
        }
        assert!(Seen::default().finish().is_err());
    }
}
