//! Advice that helps: every case of every code, on contracts made by chance with a fixed seed. What the
//! report advises is followed by a program, and the library is asked whether the fault is gone and no new
//! one has come.

use crate::common::contracts::{TEMPLATES, contract};
use crate::common::follow::followed;
use crate::common::random;
use isonkaypu::check_image;
use show::{Edit, Fault, Way, faults};
use std::collections::{BTreeMap, BTreeSet};
use words::Case;

/// How many contracts are made from each template.
const VARIANTS: u64 = 40;

/// The faults of a contract's text, by the library.
fn faults_of(text: &str) -> Vec<Fault> {
    let report = check_image(&example::image(text)).unwrap_or_else(|refusal| panic!("{refusal}: {text}"));
    faults(&report)
}

fn after(text: &str, way: &Way) -> String {
    let image = example::image(text);
    followed(text, &form::Tree::of(&image).expect("a tree"), way)
}

fn counted(faults: &[Fault]) -> BTreeMap<u16, usize> {
    let mut counts = BTreeMap::new();
    faults.iter().for_each(|fault| *counts.entry(fault.code).or_insert(0) += 1);
    counts
}

/// The way is followed: one fault of this code less, and no more of any other.
fn helps(text: &str, fault: &Fault, way: &Way) {
    let mended = after(text, way);
    let [before, after] = [text, &mended].map(|text| counted(&faults_of(text)));
    let why = format!("[{}] {:?}: {}\n{way:?}\n{text}\n{mended}", fault.code, fault.case, fault.mend);
    assert!(after.get(&fault.code).unwrap_or(&0) < &before[&fault.code], "still there: {why}");
    for (code, count) in &after {
        assert!(count <= before.get(code).unwrap_or(&0), "a new {code}: {why}");
    }
}

/// The fault of a template: the first of its code and case.
fn of_template(code: u16, case: Case, text: &str) -> Fault {
    let all = faults_of(text);
    let found = all.iter().find(|fault| fault.code == code && fault.case == case);
    let said: Vec<_> = all.iter().map(|fault| (fault.code, fault.case)).collect();
    found.unwrap_or_else(|| panic!("no {code} {case:?} but {said:?}: {text}")).clone()
}

/// What the advice of a fault comes to where it is for people, or points to another fault: the ways of
/// that one, or a stand-in for what only people can choose.
fn by_hand(text: &str, fault: &Fault) -> Vec<Way> {
    let all = faults_of(text);
    let of =
        |codes: &[u16]| all.iter().filter(|f| codes.contains(&f.code)).flat_map(|f| f.ways.clone()).collect();
    let node = fault.here.node;
    let with = |node: usize, text: &str| vec![vec![Edit::Replace { node, text: text.to_string() }]];
    match (fault.code, fault.case) {
        (34 | 51, Case::Beside) => of(&[40]),
        (35 | 50, Case::Beside) => of(&[32]),
        (61, Case::Beside) => of(&[60]),
        (26, Case::Itself) => with(node, "0"),
        (34, Case::Plain) => with(node + 1, "send"),
        _ => vec![],
    }
}

/// Cases whose advice is to mend another fault first, after which this one may stay.
fn is_first(case: Case) -> bool {
    case == Case::First
}

#[test]
fn every_advice_helps() {
    let mut reached = BTreeSet::new();
    let mut followed = 0;
    for (i, (code, case, items)) in TEMPLATES.iter().enumerate() {
        for variant in 0..VARIANTS {
            let text = contract(items, 1000 * i as u64 + variant);
            let fault = of_template(*code, *case, &text);
            let ways = if fault.ways.is_empty() { by_hand(&text, &fault) } else { fault.ways.clone() };
            assert!(!ways.is_empty() || is_first(*case), "nothing to follow: {fault:?}\n{text}");
            ways.iter().for_each(|way| helps(&text, &fault, way));
            reached.insert((*code, *case));
            followed += ways.len();
        }
    }
    let all = words::CODES.iter().flat_map(|code| {
        std::iter::once(Case::Plain).chain(Case::of_code(*code).iter().copied()).map(|case| (*code, case))
    });
    let missed: Vec<_> = all.filter(|one| !reached.contains(one)).collect();
    assert_eq!(missed, [], "cases that no contract reaches");
    println!("{} cases reached, {followed} advices followed", reached.len());
    assert!(followed > 4_000, "{followed}");
}

/// "Give each its own name first": after that the case is another one, with ways that help.
#[test]
fn names_first() {
    for (code, _, items) in TEMPLATES.iter().filter(|(_, case, _)| is_first(*case)) {
        let text = contract(items, 7);
        let repeated =
            faults_of(&text).into_iter().find(|f| matches!(f.code, 25 | 27 | 29)).expect("a 25, 27 or 29");
        helps(&text, &repeated, &repeated.ways[0]);
        let renamed = after(&text, &repeated.ways[0]);
        let left = faults_of(&renamed).into_iter().find(|f| f.code == *code || f.code == 61 || f.code == 62);
        let left = left.expect("one is left");
        assert!(left.case != Case::First && !left.ways.is_empty(), "{left:?}\n{renamed}");
        left.ways.iter().for_each(|way| helps(&renamed, &left, way));
    }
}

/// Contracts in which few names meet in every way: wherever one has a single fault, every way to mend it
/// leaves none.
#[test]
fn one_fault_by_chance() {
    let (mut followed, mut reached) = (0, BTreeSet::new());
    for seed in 0..60_000 {
        let text = random::contract(seed);
        let [fault] = &faults_of(&text)[..] else { continue };
        reached.insert((fault.code, fault.case));
        for way in &fault.ways {
            let mended = after(&text, way);
            let left = faults_of(&mended);
            assert!(left.is_empty(), "{}\n{way:?}\n{text}\n{mended}\n{left:?}", fault.mend);
            followed += 1;
        }
    }
    println!("{} cases, {followed} advices followed", reached.len());
    assert!(followed > 3_000 && reached.len() > 40, "{followed} {}", reached.len());
}

/// The examples of the file of words: their advice helps too.
#[test]
fn the_examples() {
    for entry in words::codes() {
        let fault = faults_of(&entry.before).remove(0);
        let ways = if fault.ways.is_empty() { by_hand(&entry.before, &fault) } else { fault.ways.clone() };
        assert!(!ways.is_empty(), "{}", entry.number);
        ways.iter().for_each(|way| helps(&entry.before, &fault, way));
    }
}

/// Words and data say the same: every name that a way writes stands in the sentence, but for names that
/// the writer chooses and what a sentence leaves to them.
#[test]
fn the_sentence_names_what_the_way_writes() {
    for (i, (code, case, items)) in TEMPLATES.iter().enumerate() {
        let text = contract(items, 1000 * i as u64);
        let fault = of_template(*code, *case, &text);
        let named = |name: &str| fault.mend.contains(&format!("`{name}`"));
        match case {
            Case::Near | Case::Changes => {
                let Some(Edit::Replace { text, .. }) = fault.ways[0].first() else { panic!("{fault:?}") };
                assert!(named(text), "{}: {}", text, fault.mend);
            }
            Case::Has => assert!(named("contains")),
            Case::Qtov | Case::Deployer | Case::Local | Case::Single if *code != 61 => {
                assert!(fault.mend.contains("take "), "{}", fault.mend);
                assert!(fault.ways.iter().flatten().any(|edit| matches!(edit, Edit::Remove { .. })));
            }
            Case::Clause | Case::Wrong => {
                let text = fault.ways[0].iter().find_map(|edit| match edit {
                    Edit::Clause { text, .. } | Edit::Replace { text, .. } => Some(text.clone()),
                    _ => None,
                });
                assert!(named(&text.expect("a clause")), "{}", fault.mend);
            }
            _ => {}
        }
        let declares = fault.ways.iter().flatten().any(|edit| matches!(edit, Edit::Item { .. }));
        let says = ["declare", "store"].iter().any(|word| fault.mend.contains(word));
        assert_eq!(declares, declares && says, "{}", fault.mend);
    }
}

/// A name as long as an image can hold: another one like it is no longer.
#[test]
fn long_names() {
    let long = "a".repeat(form::image::MAX_NAME);
    for items in
        ["state { L: u64; L: u32; }", "entry L() { } entry L() { }", "entry e(L: u64) { let L = 5; }"]
    {
        let text = format!("contract C {{ {} }}", items.replace('L', &long));
        let fault = faults_of(&text).remove(0);
        fault.ways.iter().for_each(|way| helps(&text, &fault, way));
    }
}

/// `QTOV` is the ledger's: nobody is told to declare it.
#[test]
fn qtov_is_never_declared() {
    for clause in ["mints", "burns"] {
        let text = format!(
            "contract C {{ asset M; entry e(lot: Q_Asset<QTOV>) {clause} QTOV {{ send(caller, lot); }} }}"
        );
        for fault in faults_of(&text) {
            assert!(!fault.mend.contains("declare"), "{}", fault.mend);
        }
    }
}
