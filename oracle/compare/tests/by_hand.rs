//! What document 01 says by hand, what the generator reaches, and that a mismatch is made small.

use compare::images::Range;
use compare::judge;
use compare::shrink::shrink;
use generate::CODES;
use generate::build::*;
use generate::patterns::{Pattern, patterns};
use quanta_typeck::conserve;
use quanta_typeck::model::Model;
use quanta_typeck::signature::lend;
use reference::{Judged, Pass, kind};

#[test]
fn patterns_and_limits_hold() {
    assert!(compare::patterns::run().is_ok());
}

/// A list that ends an item at its first offence of a rule would pass if no item had two. Rules 21
/// and 23 stand at an item's one Name; each of the others is broken twice by some item.
#[test]
fn each_rule_is_broken_twice_in_an_item() {
    for code in CODES.into_iter().filter(|code| ![21, 23].contains(code)) {
        assert!(patterns().iter().any(|p| twice_in_an_item(p, code)), "code {code}");
    }
}

fn twice_in_an_item(pattern: &Pattern, code: u16) -> bool {
    let image = pattern.tree.image();
    let tree = reference::admit(&image).expect("admitted");
    let list = pattern.list();
    tree.children(0).any(|item| {
        let within = |place: u16| (item..tree.end(item)).contains(&usize::from(place));
        list.iter().filter(|[of, place, ..]| *of == code && within(*place)).count() > 1
    })
}

/// A group that is not there is an error.
#[test]
fn the_library_agrees_in_the_groups_that_there_are() {
    let by_hand = Range { images: 0, seed: 1 };
    assert!(compare::port::run(Some(&["refusal", "refusals"]), by_hand).is_err());
    assert_eq!(compare::port::run(None, by_hand).err(), None);
}

/// The run fails as well when a code, an acceptance or a refusal comes too seldom.
#[test]
fn the_rust_agrees_and_every_code_is_reached() {
    let range = Range { images: 6_000, seed: 2 };
    if let Err(text) = compare::rust::run(range) {
        panic!("{text}");
    }
}

/// Wrong readings of request E8 show on generated images too.
#[test]
fn generated_places_tell_entries_apart() {
    let mut shown = [0; 4];
    for index in 0..2_000 {
        let image = compare::images::admitted_image(9, index);
        let shows = entry_words_shown(&reference::judge(&image).expect("admitted"));
        shown.iter_mut().zip(shows).for_each(|(images, shows)| *images += usize::from(shows));
    }
    assert!(shown.iter().all(|images| *images >= 40), "{shown:?}");
}

/// Whether an offence stands in a Genesis or an Invariant, outside entries and behind one, at an entry's
/// own Name, and in an entry that is not the first.
fn entry_words_shown(judged: &Judged) -> [bool; 4] {
    let (tree, entries, list) = (&judged.tree, judged.tree.entries(), judged.list());
    let shows = |is: &dyn Fn(usize, usize) -> bool| list.iter().any(|r| is(r.place.into(), r.entry.into()));
    let others = [kind::GENESIS, kind::INVARIANT].map(|kind| tree.items(kind)).concat();
    let within = |item: usize, place| (item..tree.end(item)).contains(&place);
    [
        shows(&|place, _| others.iter().any(|item| within(*item, place))),
        shows(&|place, entry| entry == 0 && entries.iter().any(|e| *e < place)),
        shows(&|place, entry| entry != 0 && place == tree.name(entry)),
        shows(&|_, entry| entry != 0 && entries.first() != Some(&entry)),
    ]
}

/// A comparison that passes over refused images would pass over these.
#[test]
fn crowded_images_are_admitted() {
    for index in 0..2_000 {
        let image = compare::images::crowded_image(3, index);
        assert_eq!(reference::refusal(&image), 0, "image {index}");
    }
}

/// The run fails as well when lots that share a name, or a clause, come too seldom.
#[test]
fn lots_have_the_reasons_that_are_found_place_by_place() {
    assert_eq!(compare::why::run(Range { images: 2_000, seed: 7 }).err(), None);
}

#[test]
fn the_same_seed_gives_the_same_images() {
    let image = compare::images::admitted_image(1, 5);
    assert_eq!(image, compare::images::admitted_image(1, 5));
    assert_ne!(image, compare::images::admitted_image(2, 5));
}

#[test]
fn a_mismatch_is_made_small() {
    let unused = |image: &[u8]| {
        let judged = reference::judge(image);
        judged.is_ok_and(|j| j.part(Pass::Linear).iter().any(|r| r.code == 61))
    };
    let mut images = (0..).map(|index| compare::images::admitted_image(4, index));
    let image = images.find(|i| i.len() > 1_500 && unused(i)).expect("one of many");
    let small = shrink(&image, &unused);
    assert!(unused(&small));
    // contract, Name, entry, Name, and a parameter or a Let that is not used
    assert!(small.len() < 250, "{}", compare::dump(&small));
}

#[test]
fn conserve_goes_by_the_lent_bytes() {
    let minting = entry("e", vec![of_asset(kind::MINTS, "T")]);
    let image = contract("c", vec![asset("T"), entry("f", vec![]), minting]).image();
    let contract = judge::contract(&image).ok().expect("admitted");
    let model = Model::build(&contract);
    lend(&[0, 1]);
    assert!(conserve::check(&model).is_ok());
    lend(&[1, 0]);
    assert!(conserve::check(&model).is_err());
}

#[test]
fn the_samples_are_as_the_page_and_the_readme_say() {
    assert_eq!(generate::patterns::p2().image().len(), 172);
    let report = reference::report(&generate::ward().image());
    assert_eq!(report.lines().nth(3), Some("list 3"));
}
