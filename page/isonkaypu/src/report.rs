//! A report: the verdict of each pass and every offence, for an image that was admitted. It fails
//! closed: what cannot be read from the library's answers is a doubt, and a doubt is no acceptance.

use crate::answers::Answers;
use crate::offence::{Offence, Place, counts_uses};
use crate::why::Said;
use crate::{Doubt, Entry, Lot, Pass, WhyError};
use form::Tree;
use isonkaypu_sys::{Answer, RECORD};
use quanta_lexer::Span;
use std::fmt;

/// What a pass answers.
#[derive(Clone, Copy, Debug, PartialEq)]
#[non_exhaustive]
pub struct Verdict {
    /// 0 where the pass accepts, else the code of its first offence.
    pub code: u16,
    /// Where that offence stands; node 0 and span 0 where the pass accepts.
    pub place: Place,
}

impl Verdict {
    const ACCEPTED: Verdict = Verdict { code: 0, place: Place { node: 0, span: Span { start: 0, end: 0 } } };

    /// The offence that the pass met first, as far as a verdict tells: without its name, its related place
    /// and its reasons. Which entry of the image's tree it stands in is seen by its place. Nothing where the pass
    /// accepts.
    pub fn offence(self, tree: &Tree) -> Option<Offence> {
        let Verdict { code, place } = self;
        let entry = Entry::around(tree, place.node);
        (code != 0).then_some(Offence { code, place, name: None, related: None, entry, reasons: None })
    }

    /// A number too large for its place becomes the largest, which is no code and no node.
    fn of(answer: &Answer) -> Verdict {
        let word = |number: usize| u32::try_from(number).unwrap_or(u32::MAX);
        let span = Span { start: word(answer.from), end: word(answer.to) };
        Verdict {
            code: u16::try_from(answer.number).unwrap_or(u16::MAX),
            place: Place { node: answer.place, span },
        }
    }
}

/// What the checker says of an admitted image.
#[must_use = "a contract is let through only where the report is accepted"]
#[derive(Clone, Debug, PartialEq)]
pub struct Report {
    image: Vec<u8>,
    verdicts: [Verdict; 3],
    offences: Vec<Offence>,
    doubts: Vec<Doubt>,
}

impl Report {
    pub(crate) fn of(image: &[u8], answers: &Answers) -> Report {
        let mut doubts = Vec::new();
        let tree = Tree::of(image);
        let mut offences = offences(tree.as_ref(), answers, &mut doubts);
        let verdicts = answers.verdicts.each_ref().map(Verdict::of);
        // a list that could not be read says nothing of the verdicts
        if doubts.is_empty() {
            let unlike = |(pass, verdict): &(Pass, Verdict)| *verdict != first_of(*pass, &offences);
            let doubted = Pass::ALL.iter().copied().zip(verdicts).filter(unlike);
            doubts.extend(doubted.map(|(pass, _)| Doubt::Verdict(pass)));
        }
        let ask = |place: usize| (answers.why)(image, place);
        doubts.extend(tree.iter().flat_map(|tree| give_reasons(tree, ask, &mut offences)));
        Report { image: image.to_vec(), verdicts, offences, doubts }
    }

    /// True only where every pass ran and accepted, and the list of offences is whole and empty.
    #[must_use]
    pub fn accepted(&self) -> bool {
        let all_accept = self.verdicts.iter().all(|verdict| *verdict == Verdict::ACCEPTED);
        all_accept && self.offences.is_empty() && self.doubts.is_empty()
    }

    /// The verdict of a pass.
    pub fn verdict(&self, pass: Pass) -> Verdict {
        let [resolve, access, linear] = self.verdicts;
        match pass {
            Pass::Resolve => resolve,
            Pass::Access => access,
            Pass::Linear => linear,
        }
    }

    /// Every offence, in document 01's order.
    pub fn offences(&self) -> &[Offence] {
        &self.offences
    }

    /// Why the report is not to be relied on: empty with the library that is proved.
    pub fn doubts(&self) -> &[Doubt] {
        &self.doubts
    }

    /// The lot at a node, with every use of it, as `crate::why` has it. An answer that does not go with the list
    /// is none: a lot with exactly one use has no 61 and no 62, any other has one with the same uses.
    pub fn why(&self, place: usize) -> Result<Lot, WhyError> {
        let lot = crate::why(&self.image, place)?;
        let of_lot = |offence: &&Offence| counts_uses(offence.code) && offence.place == lot.place;
        let fits = match self.offences.iter().find(of_lot) {
            Some(offence) => offence.reasons.as_ref() == Some(&lot.reasons),
            None => lot.reasons.len() == 1,
        };
        if fits { Ok(lot) } else { Err(WhyError::Doubted) }
    }

    /// The image that was checked.
    pub fn image(&self) -> &[u8] {
        &self.image
    }

    /// The tree of the image. Every admitted image has one.
    pub fn tree(&self) -> Option<Tree<'_>> {
        Tree::of(&self.image)
    }
}

/// `accepted`, or `refused` with a line for each offence and each doubt. What the codes mean is said by
/// `words`, and `show` has reports for people.
impl fmt::Display for Report {
    fn fmt(&self, f: &mut fmt::Formatter<'_>) -> fmt::Result {
        if self.accepted() {
            return write!(f, "accepted");
        }
        write!(f, "refused")?;
        self.offences.iter().try_for_each(|offence| write!(f, "\n{offence}"))?;
        self.doubts.iter().try_for_each(|doubt| write!(f, "\n{doubt}"))
    }
}

/// The verdict that a pass must have given: its first offence in the list.
fn first_of(pass: Pass, offences: &[Offence]) -> Verdict {
    let first = offences.iter().find(|offence| Pass::of_code(offence.code) == Some(pass));
    first.map_or(Verdict::ACCEPTED, |first| Verdict { code: first.code, place: first.place })
}

/// The offences of the list as far as it can be read; what cannot is doubted.
fn offences(tree: Option<&Tree>, answers: &Answers, doubts: &mut Vec<Doubt>) -> Vec<Offence> {
    if answers.list != 0 {
        doubts.push(Doubt::List(answers.list));
        return Vec::new();
    }
    let (records, _) = answers.words.as_chunks::<RECORD>();
    let Some(records) = records.get(..answers.count) else {
        doubts.push(Doubt::Count(answers.count));
        return Vec::new();
    };
    let mut offences = Vec::with_capacity(records.len());
    for record in records {
        match tree.and_then(|tree| Offence::of(tree, *record)) {
            Some(offence) => offences.push(offence),
            None => doubts.push(Doubt::Record(*record)),
        }
    }
    offences
}

/// Gives each offence of a lot that is not used exactly once its reasons; where there are none that can be
/// relied on, that is a doubt.
fn give_reasons(tree: &Tree, ask: impl Fn(usize) -> Said, offences: &mut [Offence]) -> Vec<Doubt> {
    let mut doubts = Vec::new();
    for offence in offences.iter_mut().filter(|offence| counts_uses(offence.code)) {
        let place = offence.place.node;
        offence.reasons = ask(place).of_offence(tree, offence);
        doubts.extend(offence.reasons.is_none().then_some(Doubt::Reasons(offence.code, place)));
    }
    doubts
}

#[cfg(test)]
mod tests {
    use super::*;

    const ACCEPTS: Answer = Answer { number: 0, place: 0, from: 0, to: 0 };

    /// The first is accepted, the second, document 01's P2, has the one offence 61.
    fn images() -> [Vec<u8>; 2] {
        ["contract c { entry e() { } }", "contract c { entry e(x: Q_Asset) { } }"].map(example::image)
    }

    fn accepting() -> Answers {
        Answers { verdicts: [ACCEPTS; 3], list: 0, count: 0, words: vec![0; 3 * RECORD], why: Said::of }
    }

    fn doubts(image: &[u8], answers: &Answers) -> Vec<Doubt> {
        let report = Report::of(image, answers);
        assert!(!report.accepted());
        assert!(report.to_string().starts_with("refused\n"));
        report.doubts().to_vec()
    }

    #[test]
    fn what_the_library_says_is_taken() {
        let [accepted, offending] = images();
        assert!(Report::of(&accepted, &accepting()).accepted());
        for image in [&accepted, &offending] {
            let report = Report::of(image, &Answers::of(image).unwrap());
            assert_eq!((report.accepted(), report.doubts()), (image == &accepted, &[][..]));
        }
    }

    #[test]
    fn a_list_that_is_not_whole_is_not_accepted() {
        let [image, _] = images();
        for number in [9, 1, 10, usize::MAX] {
            let answers = Answers { list: number, ..accepting() };
            assert_eq!(doubts(&image, &answers), [Doubt::List(number)]);
        }
        for count in [4, 32_768, usize::MAX / RECORD + 1, usize::MAX] {
            let answers = Answers { count, ..accepting() };
            assert_eq!(doubts(&image, &answers), [Doubt::Count(count)]);
        }
    }

    #[test]
    fn a_record_that_nobody_can_read_is_not_accepted() {
        let [_, image] = images();
        let nodes = Tree::of(&image).unwrap().len() as u16;
        let codes = [[0, 0, 0, 0], [41, 5, 0, 2], [63, 5, 0, 2], [9, 5, 0, 2]];
        let places = [[61, nodes, 0, 2], [61, 5, nodes, 2], [61, 65_535, 0, 2]];
        // no entry for a place in one, the contract, the place itself, no node, and an entry for a place in none
        let entries = [[61, 5, 0, 0], [61, 5, 0, 1], [61, 5, 0, 5], [61, 5, 0, nodes], [61, 1, 0, 2]];
        for record in codes.iter().chain(&places).chain(&entries).copied() {
            let answers = Answers { count: 1, words: record.to_vec(), ..accepting() };
            assert_eq!(doubts(&image, &answers), [Doubt::Record(record)]);
        }
    }

    #[test]
    fn verdict_and_list_must_say_the_same() {
        let [accepted, offending] = images();
        let linear = |answer| Answers { verdicts: [ACCEPTS, ACCEPTS, answer], ..accepting() };
        let said = isonkaypu_sys::linear(&offending);
        for number in [1, 8, 20, 61, usize::MAX] {
            let doubted = doubts(&accepted, &linear(Answer { number, ..ACCEPTS }));
            assert_eq!(doubted, [Doubt::Verdict(Pass::Linear)]);
        }
        // a verdict without its record, and the other way round
        assert_eq!(doubts(&offending, &linear(said)), [Doubt::Verdict(Pass::Linear)]);
        let listed = Answers { count: 1, words: vec![61, 5, 0, 2], ..accepting() };
        assert_eq!(doubts(&offending, &listed), [Doubt::Verdict(Pass::Linear)]);
        // another place, another span
        for wrong in
            [Answer { place: 4, ..said }, Answer { from: 1, ..said }, Answer { to: usize::MAX, ..said }]
        {
            let answers = Answers { count: 1, words: vec![61, 5, 0, 2], ..linear(wrong) };
            assert_eq!(doubts(&offending, &answers), [Doubt::Verdict(Pass::Linear)]);
        }
    }

    /// The library's own words. Document 02: P2's record is `61 5 0 2`. Of two entries of one name each offence has
    /// its own, and outside of the entries it is 0.
    #[test]
    fn each_offence_has_its_entry() {
        let [_, p2] = images();
        let namesakes = "contract c { invariant y; entry e(x: Q_Asset) { } entry e(x: Q_Asset) { } }";
        let of_namesakes = [[23, 11, 5, 10], [50, 3, 0, 0], [61, 7, 0, 4], [61, 13, 0, 10]];
        for (image, records) in [(p2, &[[61, 5, 0, 2]][..]), (example::image(namesakes), &of_namesakes)] {
            let mut words = vec![7; RECORD * records.len()];
            assert_eq!(isonkaypu_sys::list(&image, &mut words), (0, records.len()));
            assert_eq!(words.as_chunks::<RECORD>().0, records);
            // one word short, every word stays as it was
            let mut short = vec![7; words.len() - 1];
            assert_eq!(isonkaypu_sys::list(&image, &mut short), (9, 0));
            assert!(short.iter().all(|word| *word == 7));
            let report = Report::of(&image, &Answers::of(&image).unwrap());
            assert_eq!(report.doubts(), []);
            let entry = |offence: &Offence| offence.entry.as_ref().map_or(0, |entry| entry.place.node as u16);
            assert!(report.offences().iter().map(entry).eq(records.iter().map(|[.., entry]| *entry)));
            assert!(
                report.offences().iter().flat_map(|offence| &offence.entry).all(|entry| entry.name == "e")
            );
        }
    }

    /// Where there is no list, the first offence of a pass still stands in its entry.
    #[test]
    fn a_verdicts_entry_is_seen_by_its_place() {
        for (text, entry) in [("invariant y; entry e() { }", None), ("entry e(x: Q_Asset) { }", Some(2))] {
            let image = example::image(&format!("contract c {{ {text} }}"));
            let report = Report::of(&image, &Answers::of(&image).unwrap());
            let tree = report.tree().unwrap();
            let offences = Pass::ALL.iter().filter_map(|pass| report.verdict(*pass).offence(&tree));
            let entries: Vec<_> = offences.map(|one| one.entry.map(|entry| entry.place.node)).collect();
            assert_eq!(entries, [entry], "{text}");
        }
    }

    /// A contract with one 62, and what the library says of it.
    fn used_twice() -> (Vec<u8>, Answers) {
        let image = example::image("contract c { entry e(x: Q_Asset<M>) burns M { send(x, x); } }");
        let answers = Answers::of(&image).unwrap();
        (image, answers)
    }

    #[test]
    fn each_61_and_62_has_its_reasons() {
        let reasons = |image: &[u8]| {
            let report = Report::of(image, &Answers::of(image).unwrap());
            assert_eq!(report.doubts(), []);
            let of = |offence: &Offence| (offence.code, offence.reasons.as_ref().map(Vec::len));
            report.offences().iter().map(of).collect::<Vec<_>>()
        };
        let [_, unused] = images();
        assert_eq!(reasons(&unused), [(61, Some(0))]);
        assert_eq!(reasons(&used_twice().0), [(39, None), (62, Some(3))]);
        let report = Report::of(&unused, &Answers::of(&unused).unwrap());
        let tree = report.tree().unwrap();
        assert_eq!(report.verdict(Pass::Linear).offence(&tree).and_then(|offence| offence.reasons), None);
    }

    fn said(number: usize, words: &[u16]) -> Said {
        Said { number, count: words.len(), words: words.to_vec() }
    }

    /// What nobody can read of a lot, and what does not go with its code or its related place: the clause is
    /// node 11, the uses are 15, which is related, and 16, and 13 takes both.
    const NOT_OF_THE_62: &[fn(&[u8], usize) -> Said] = &[
        |_, _| said(1, &[]),
        |_, _| said(10, &[]),
        |_, _| said(13, &[]),
        |_, _| said(usize::MAX, &[11, 0, 15, 13, 16, 13]),
        |_, _| Said { count: 5, ..said(0, &[11, 0, 15, 13]) },
        |_, _| Said { count: usize::MAX, ..said(0, &[11, 0, 15, 13]) },
        |_, _| said(0, &[11, 0, 15, 13, 16]),
        |_, _| said(0, &[]),
        |_, _| said(0, &[11, 0]),
        |_, _| said(0, &[15, 13]),
        |_, _| said(0, &[15, 13, 16, 13]),
        |_, _| said(0, &[11, 0, 16, 13]),
        |_, _| said(0, &[11, 0, 11, 0]),
        |_, _| said(0, &[10, 0, 15, 13]),
        |_, _| said(0, &[11, 0, 15, 14]),
        |_, _| said(0, &[11, 0, 15, 17]),
        |_, _| said(0, &[11, 0, 15, 13, 17, 13]),
        |_, _| said(0, &[11, 0, 15, 13, 65_535, 65_535]),
    ];

    #[test]
    fn reasons_must_go_with_the_code() {
        let (image, answers) = used_twice();
        let right = Answers { why: |_, _| said(0, &[11, 0, 15, 13, 16, 13]), ..answers };
        assert_eq!(doubts(&image, &right), []);
        for why in NOT_OF_THE_62 {
            let (_, answers) = used_twice();
            assert_eq!(doubts(&image, &Answers { why: *why, ..answers }), [Doubt::Reasons(62, 5)]);
        }
        let [_, unused] = images();
        let answers = Answers { why: |_, _| said(0, &[5, 0]), ..Answers::of(&unused).unwrap() };
        assert_eq!(doubts(&unused, &answers), [Doubt::Reasons(61, 5)]);
    }

    /// What is said of a lot is held against the report: an answer that does not go with the list is none.
    #[test]
    fn a_lot_goes_with_the_list() {
        let (image, answers) = used_twice();
        let report = Report::of(&image, &answers);
        assert_eq!(report.why(5).map(|lot| lot.reasons.len()), Ok(3));
        assert_eq!(report.why(4), Err(WhyError::NoLot(4)));
        // a list without the 62, and one whose reasons were in doubt
        assert_eq!(Report::of(&image, &accepting()).why(5), Err(WhyError::Doubted));
        let doubted = Report::of(&image, &Answers { why: |_, _| said(13, &[]), ..answers });
        assert_eq!(doubted.why(5), Err(WhyError::Doubted));
        let once = example::image("contract c { entry e(x: Q_Asset) { send(1, x); } }");
        assert_eq!(Report::of(&once, &accepting()).why(5).map(|lot| lot.reasons.len()), Ok(1));
    }

    #[test]
    fn bytes_without_a_tree_are_not_accepted_on_any_record() {
        let listed = Answers { count: 1, words: vec![61, 5, 0, 0], ..accepting() };
        assert_eq!(doubts(b"no image", &listed), [Doubt::Record([61, 5, 0, 0])]);
    }
}
