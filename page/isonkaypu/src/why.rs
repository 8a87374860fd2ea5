//! Why a lot is refused: every `burns` clause and every use that counts for it, as the proved library gives them.

use crate::name::name_of;
use crate::{ImageRefusal, Offence, Place};
use form::image::MAX_NODES;
use form::{Tree, kind};
use std::fmt;

/// The library's number for a place at which no lot stands.
const NO_LOT: usize = 13;

/// Two words for each node: there are never more clauses and uses than nodes.
const WORDS: usize = 2 * MAX_NODES;

/// One of the uses of a lot.
#[derive(Clone, Copy, Debug, PartialEq)]
#[non_exhaustive]
pub enum Reason {
    /// A `burns` clause uses the lot up.
    #[non_exhaustive]
    Clause {
        /// The name of the asset in the clause: of the first clause of that asset.
        name: Place,
    },
    /// A statement uses it.
    #[non_exhaustive]
    Use {
        /// The lot's name, where it is used.
        ident: Place,
        /// The call or the assignment that takes it.
        consumer: Place,
    },
}

impl Reason {
    /// Where it stands: the name in the clause, or the lot's name in the statement.
    #[must_use]
    pub fn place(self) -> Place {
        match self {
            Reason::Clause { name } => name,
            Reason::Use { ident, .. } => ident,
        }
    }

    /// The call or the assignment that takes the lot; a clause has none.
    #[must_use]
    pub fn consumer(self) -> Option<Place> {
        match self {
            Reason::Clause { .. } => None,
            Reason::Use { consumer, .. } => Some(consumer),
        }
    }

    /// The reason of two words, where each is a node of the kind that it must be.
    fn of(tree: &Tree, [place, consumer]: [u16; 2]) -> Option<Reason> {
        let node = |word: u16, kinds: &[u8]| {
            Place::of(tree, usize::from(word)).filter(|place| kinds.contains(&tree.kind(place.node)))
        };
        match consumer {
            0 => Some(Reason::Clause { name: node(place, &[kind::NAME])? }),
            _ => Some(Reason::Use {
                ident: node(place, &[kind::IDENT])?,
                consumer: node(consumer, &[kind::CALL, kind::ASSIGN])?,
            }),
        }
    }
}

/// A lot of a contract: a parameter of type `Q_Asset`, or a `let` that splits off or mints.
#[derive(Clone, Debug, PartialEq)]
#[non_exhaustive]
pub struct Lot {
    /// The parameter's name, or the `let`.
    pub place: Place,
    /// What it is called.
    pub name: Option<String>,
    /// Every use of it: first the `burns` clauses, in the order of the parameters that they burn, then the
    /// uses in statements, in the order of the text. A clause that burns two parameters of one name is here
    /// twice. A lot with exactly one use is as it should be; one without is a 61, one with more a 62.
    pub reasons: Vec<Reason>,
}

/// Why there is no answer about a lot.
#[derive(Clone, Copy, Debug, PartialEq, Eq, Hash)]
#[non_exhaustive]
pub enum WhyError {
    /// The bytes are no image.
    Image(ImageRefusal),
    /// No lot stands at this node, or there is no such node: the library's 13.
    NoLot(usize),
    /// The library's answer cannot be read, or does not go with the report. It is proved that it gives none of
    /// this sort.
    Doubted,
}

impl fmt::Display for WhyError {
    fn fmt(&self, f: &mut fmt::Formatter<'_>) -> fmt::Result {
        match self {
            WhyError::Image(refusal) => refusal.fmt(f),
            WhyError::NoLot(place) => write!(f, "no lot stands at node {place}"),
            WhyError::Doubted => write!(f, "the checker's answer about this lot cannot be relied on"),
        }
    }
}

impl std::error::Error for WhyError {}

/// Asks which clauses and which statements use the lot at a node: that of an offence 61 or 62, or any of
/// `lots`. Any bytes and any number may be given.
///
/// ```
/// # let image = example::image("contract Ward { entry pass(box: Q_Asset<M>, to: Q_Address) { send(to, box); } }");
/// let [lot] = &isonkaypu::lots(&image)?[..] else { panic!("one lot") };
/// assert_eq!(isonkaypu::why(&image, lot.place.node)?, *lot);
/// assert_eq!((lot.name.as_deref(), lot.reasons.len()), (Some("box"), 1));
/// # Ok::<(), isonkaypu::WhyError>(())
/// ```
pub fn why(image: &[u8], place: usize) -> Result<Lot, WhyError> {
    let tree = Tree::of(image);
    lot(tree.as_ref(), place, &Said::of(image, place))
}

/// Every lot of the contract, in the order of the text.
pub fn lots(image: &[u8]) -> Result<Vec<Lot>, WhyError> {
    ImageRefusal::unless_admitted(isonkaypu_sys::refusal(image)).map_err(WhyError::Image)?;
    let tree = Tree::of(image).ok_or(WhyError::Doubted)?;
    // which of these are lots the library says; at no other node does one stand
    let named = |node: &usize| tree.kind(*node) == kind::PARAM || tree.kind(*node) == kind::LET;
    let place = |node: usize| if tree.kind(node) == kind::PARAM { node + 1 } else { node };
    let asked = tree.all().filter(named).map(place);
    let asked = asked.map(|place| lot(Some(&tree), place, &Said::of(image, place)));
    asked.filter(|answer| !matches!(answer, Err(WhyError::NoLot(_)))).collect()
}

/// The lot at a place, by what the library says of it.
fn lot(tree: Option<&Tree>, place: usize, said: &Said) -> Result<Lot, WhyError> {
    let words = said.words(place)?;
    let tree = tree.ok_or(WhyError::Doubted)?;
    let reasons = reasons(tree, words).ok_or(WhyError::Doubted)?;
    let at = Place::of(tree, place).ok_or(WhyError::Doubted)?;
    // a lot is called the same, whichever its code is
    Ok(Lot { place: at, name: name_of(tree, 62, place), reasons })
}

/// The reasons of the words, where all can be read.
fn reasons(tree: &Tree, words: &[u16]) -> Option<Vec<Reason>> {
    let (entries, []) = words.as_chunks::<2>() else {
        return None;
    };
    entries.iter().map(|entry| Reason::of(tree, *entry)).collect()
}

/// The library's answer about one place, as it gives it.
pub struct Said {
    pub number: usize,
    pub count: usize,
    pub words: Vec<u16>,
}

impl Said {
    pub fn of(image: &[u8], place: usize) -> Said {
        let mut words = vec![0; WORDS];
        let (number, count) = isonkaypu_sys::why(image, place, &mut words);
        Said { number, count, words }
    }

    /// The words that were written, or why there are none.
    fn words(&self, place: usize) -> Result<&[u16], WhyError> {
        match self.number {
            0 => self.words.get(..self.count).ok_or(WhyError::Doubted),
            NO_LOT => Err(WhyError::NoLot(place)),
            number => match ImageRefusal::unless_admitted(number) {
                Err(refusal) if refusal != ImageRefusal::UNKNOWN => Err(WhyError::Image(refusal)),
                _ => Err(WhyError::Doubted),
            },
        }
    }

    /// The reasons of an offence, where they can be read and are what is proved of them: 61 has none, 62 has
    /// two or more, and what is related is the second of them, where that is a use in a statement.
    pub fn of_offence(&self, tree: &Tree, offence: &Offence) -> Option<Vec<Reason>> {
        let reasons = lot(Some(tree), offence.place.node, self).ok()?.reasons;
        let second = reasons.get(1).filter(|second| second.consumer().is_some());
        let related = second.map(|second| second.place());
        let fits = match offence.code {
            61 => reasons.is_empty(),
            _ => reasons.len() > 1,
        };
        (fits && related == offence.related).then_some(reasons)
    }
}

#[cfg(test)]
mod tests {
    use super::*;

    /// A lot that is burned and stored, and one that nothing uses.
    const LOTS: &str = "contract c { asset M; entry e(x: Q_Asset<M>) burns M { let y = mint(1); s = x; } }";

    #[test]
    fn the_library_is_asked() {
        let image = example::image(LOTS);
        let tree = Tree::of(&image).unwrap();
        let told = |reason: &Reason| {
            let text = |place: Place| String::from_utf8(tree.text(place.node).to_vec()).unwrap();
            (text(reason.place()), reason.consumer().map(|place| kind::word(tree.kind(place.node))))
        };
        let lots = lots(&image).unwrap();
        let of = |lot: &Lot| (lot.name.clone().unwrap(), lot.reasons.iter().map(told).collect::<Vec<_>>());
        let x = ("x".to_string(), vec![("M".to_string(), None), ("x".to_string(), Some("Assign"))]);
        assert_eq!(lots.iter().map(of).collect::<Vec<_>>(), [x, ("y".to_string(), vec![])]);
        for lot in &lots {
            assert_eq!(why(&image, lot.place.node), Ok(lot.clone()));
        }
    }

    /// Every number that is no lot's place, small and large.
    #[test]
    fn no_lot_stands_elsewhere() {
        let image = example::image(LOTS);
        let places: Vec<usize> = lots(&image).unwrap().iter().map(|lot| lot.place.node).collect();
        let nodes = Tree::of(&image).unwrap().len();
        let around = [65_535, 65_536, 65_536 + places[0], u32::MAX as usize, usize::MAX];
        for place in (0..=nodes).chain(around).filter(|place| !places.contains(place)) {
            assert_eq!(why(&image, place), Err(WhyError::NoLot(place)));
        }
    }

    #[test]
    fn what_is_no_image() {
        for (bytes, number) in [(&b""[..], 1), (&[0; 24], 2)] {
            let refused = WhyError::Image(ImageRefusal::unless_admitted(number).unwrap_err());
            assert_eq!((why(bytes, 5), lots(bytes)), (Err(refused), Err(refused)));
            assert!(refused.to_string().starts_with(&format!("image {number}: ")));
        }
        assert_eq!(WhyError::NoLot(7).to_string(), "no lot stands at node 7");
    }

    /// A number that nobody knows, and words that are not there, are no answer.
    #[test]
    fn only_an_answer_is_taken_for_one() {
        let words = |number, count| Said { number, count, words: vec![0; 4] }.words(5).map(<[u16]>::len);
        assert_eq!([words(0, 4), words(0, 0)], [Ok(4), Ok(0)]);
        for (number, count) in [(0, 5), (0, usize::MAX), (9, 0), (10, 0), (12, 0), (14, 2), (usize::MAX, 0)] {
            assert_eq!(words(number, count), Err(WhyError::Doubted), "{number} {count}");
        }
        assert_eq!(words(13, 0), Err(WhyError::NoLot(5)));
    }
}
