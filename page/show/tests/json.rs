//! The JSON form: strict, whole, and the same at any source.

use crate::common;
use crate::common::chance::Chance;
use crate::common::contracts::{BURNED_AND_SENT, BURNED_TWICE};
use crate::common::json::Json;
use crate::common::{fitted, images, respanned, sample, shown, shown_source, shown_ward};
use isonkaypu::Limit;

const KEYS: &[&str] = &[
    "by_entry",
    "checked",
    "complete",
    "doubts",
    "image",
    "kit",
    "label",
    "library",
    "not_checked",
    "offences",
    "outcome",
    "schema",
    "source",
    "tool",
    "verdicts",
];

fn keys(json: &Json) -> Vec<&str> {
    let Json::Object(members) = json else { panic!("no object: {json:?}") };
    members.keys().map(String::as_str).collect()
}

#[test]
fn a_faulty_contract() {
    let source = common::ward();
    let json = Json::read(&shown_ward(show::json));
    assert_eq!(keys(&json), KEYS);
    assert_eq!(json.at("outcome/result").text(), "refused");
    assert_eq!(json.at("library").text(), isonkaypu::library());
    let codes: Vec<u64> = json.at("offences").list().iter().map(|o| o.at("code").number()).collect();
    assert_eq!(codes, [30, 51, 62]);
    for offence in json.at("offences").list() {
        assert_eq!(
            keys(offence),
            ["code", "entry", "mend", "name", "pass", "place", "reasons", "related", "sentence", "title"]
        );
        assert_eq!(keys(offence.at("place")), ["label", "node", "region", "span"]);
    }
    let (changed, twice) = (json.at("offences/1"), json.at("offences/2"));
    assert_eq!(changed.at("entry/name").text(), "issue");
    assert_eq!([changed.at("name").text(), twice.at("name").text()], ["issued", "part"]);
    assert_eq!(cut(&source, changed.at("place")), "issued = checked(issued + amount);");
    assert_eq!(cut(&source, twice.at("place")), "let part = stock.get(ward).split(amount);");
    assert_eq!(cut(&source, twice.at("related/0")), "part");
    assert_eq!(twice.at("related/0/region/start_line").number(), line_of(&source, "send(pharmacist, part)"));
    assert_eq!(twice.at("related/0/region/start_column").number(), 26);
}

/// What a place of a report says of itself: its text, its line, its label, and whether it is listed.
fn place_of<'a>(source: &'a str, place: &'a Json) -> (&'a str, u64, &'a str, bool) {
    let line = place.at("region/start_line").number();
    (cut(source, place), line, place.at("label").text(), place.at("listed") == &Json::Bool(true))
}

/// Document 01's P9: the use is the listed place, and the clause, which is the earlier use, stands beside it.
#[test]
fn burned_and_sent() {
    let source = BURNED_AND_SENT;
    let json = Json::read(&shown_source(show::json, source));
    let offence = json.at("offences/0");
    assert_eq!(offence.at("code").number(), 62);
    let places: Vec<_> = offence.at("related").list().iter().map(|place| place_of(source, place)).collect();
    let expected = [
        ("lot", line_of(source, "send(to, lot)"), "its second use, taken by the call `send`", true),
        ("Morphine", line_of(source, "burns Morphine"), "this clause is its first use", false),
    ];
    assert_eq!(places, expected);
    let related = common::related_of_62(source).expect("a related place");
    assert_eq!(offence.at("related/0/node").number(), related.node as u64);
}

/// `burns` alone makes two uses: no place is listed, and both clauses are there.
#[test]
fn burned_twice() {
    let json = Json::read(&shown_source(show::json, BURNED_TWICE));
    let offence = json.at("offences").list().iter().find(|o| o.at("code").number() == 62).expect("a 62");
    let places: Vec<_> = offence.at("related").list().iter().map(|p| place_of(BURNED_TWICE, p)).collect();
    let label = "this clause is a use for each `lot` that it burns";
    let expected = ["Morphine", "Fentanyl"]
        .map(|asset| (asset, line_of(BURNED_TWICE, &format!("burns {asset}")), label, false));
    assert_eq!(places, expected);
    assert_eq!(common::related_of_62(BURNED_TWICE), None);
}

fn cut<'a>(source: &'a str, place: &Json) -> &'a str {
    &source[place.at("span/from").number() as usize..place.at("span/to").number() as usize]
}

fn line_of(source: &str, text: &str) -> u64 {
    source[..source.find(text).expect("it is there")].matches('\n').count() as u64 + 1
}

#[test]
fn an_accepted_contract() {
    let json = Json::read(&shown_source(show::json, &common::mended()));
    assert_eq!(json.at("outcome/result").text(), "accepted");
    assert_eq!(json.at("outcome/refusal"), &Json::Null);
    assert_eq!((json.at("offences").list(), json.at("by_entry").list()), (&[][..], &[][..]));
    let accepted: Vec<_> = json.at("verdicts").list().iter().map(|v| v.at("accepted").clone()).collect();
    assert_eq!(accepted, vec![Json::Bool(true); 3]);
    assert_eq!(json.at("not_checked").list().len(), words::gaps().len());
}

#[test]
fn no_image() {
    let json = Json::read(&shown(show::json, "x", b"no image", None));
    assert_eq!(keys(&json), KEYS);
    assert_eq!(json.at("outcome/result").text(), "no image");
    assert_eq!(json.at("outcome/refusal/number").number(), 1);
    for key in ["verdicts", "offences", "by_entry"] {
        assert_eq!(json.at(key), &Json::Null, "{key}");
    }
    let gaps: Vec<&str> = json.at("not_checked").list().iter().map(Json::text).collect();
    assert_eq!(gaps[..5], ["names", "access", "lots", "supply (conserve)", "signed authority"]);
    assert_eq!((gaps.len(), json.at("checked").list().len()), (3 + words::gaps().len(), 0));
}

/// A contract that has no image: the limit's own sentence, and its place.
#[test]
fn not_packed() {
    let keys_of_refusal = ["matters", "means", "mend", "number", "place", "sentence", "title"];
    for limit in common::LIMITS {
        let json = Json::read(&common::umlaut(show::json, limit));
        assert_eq!(keys(&json), KEYS);
        assert_eq!((json.at("outcome/result").text(), json.at("image")), ("no image", &Json::Null));
        let refusal = json.at("outcome/refusal");
        assert_eq!(keys(refusal), keys_of_refusal);
        assert_eq!(refusal.at("sentence").text(), limit.to_string());
        assert!(!refusal.at("mend").text().is_empty());
        match limit.number() {
            0 => assert_eq!(refusal.at("number"), &Json::Null),
            number => assert_eq!(refusal.at("number").number(), number.into()),
        }
        assert_eq!(cut(common::UMLAUT, refusal.at("place")), "ausgabe_für");
        assert_eq!(refusal.at("place/region/start_line").number(), 2);
        assert_eq!(refusal.at("place/region/end_column").number(), 24);
    }
    let alone = Json::read(&common::not_packed(show::json, Limit::Nodes, (3, 9), None));
    assert_eq!(alone.at("outcome/refusal/place/span/from").number(), 3);
    assert_eq!(alone.at("outcome/refusal/place/region"), &Json::Null);
    let no_image = Json::read(&shown(show::json, "x", b"no image", None));
    assert_eq!(keys(no_image.at("outcome/refusal")), keys_of_refusal);
    assert_eq!(no_image.at("outcome/refusal/place"), &Json::Null);
}

/// Without the source there are names and node numbers, and no regions.
#[test]
fn without_the_source() {
    let json = Json::read(&shown(show::json, "ward.image", &sample("ward.image"), None));
    assert_eq!(json.at("source"), &Json::Null);
    assert_eq!(json.at("offences").list().len(), 3);
    assert!(json.at("offences").list().iter().all(|o| o.at("place/region") == &Json::Null));
}

/// Any source, any label and any span words are written and read back.
#[test]
fn anything_is_read_back() {
    for (seed, image) in (0..300).zip(images().iter().cycle()) {
        let mut chance = Chance::new(seed);
        let length = chance.below(60);
        let source = chance.nasty(length);
        let label = String::from_utf8_lossy(&chance.nasty(8)).into_owned();
        let other = respanned(image, |_| chance.span(source.len()));
        let fits = fitted(image, &mut chance, |chance| chance.nasty(3));
        for (image, source, state) in [(&other, &source, "other"), (&fits.0, &fits.1, "same")] {
            let json = Json::read(&shown(show::json, &label, image, Some(source)));
            assert_eq!([json.at("label").text(), json.at("source/state").text()], [&label, state]);
            assert!(!json.at("offences").list().is_empty());
        }
    }
}

/// Several contracts are a list of the same objects.
#[test]
fn several() {
    let reports = ["contract C { }", "contract C { invariant x; }"]
        .map(|text| isonkaypu::check_image(&example::image(text)).expect("an image"));
    let subjects = [show::Subject::checked("a", &reports[0]), show::Subject::checked("b", &reports[1])];
    let json = Json::read(&show::json_of(&subjects));
    assert_eq!(json.list().len(), 2);
    assert_eq!(json.at("0"), &Json::read(&show::json(&subjects[0])));
    assert_eq!(json.at("1"), &Json::read(&show::json(&subjects[1])));
}
