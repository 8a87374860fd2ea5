//! The SARIF form against what the standard (OASIS SARIF 2.1.0) requires: which properties an object
//! must have, which it may have, of which types, and which words an enumeration knows.

use crate::common;
use crate::common::chance::Chance;
use crate::common::contracts::{BURNED_AND_SENT, BURNED_TWICE};
use crate::common::json::Json;
use crate::common::pages::hostile;
use crate::common::{crossing, fitted, images, mended, respanned, sample, shown, shown_source, shown_ward};

/// The type of a property.
#[derive(Clone, Copy)]
enum Type {
    Text,
    Bool,
    /// A whole number, at least as large.
    From(u64),
    /// One of these words.
    Word(&'static [&'static str]),
    Object(&'static str),
    /// At least as many of these objects.
    Objects(usize, &'static str),
    Words(&'static [&'static str]),
    /// An object of texts by any keys.
    Texts,
    /// An absolute URI.
    Uri,
    /// A property bag: anything.
    Bag,
}
use Type::*;

type Property = (&'static str, bool, Type);

const MUST: bool = true;
const MAY: bool = false;
const LEVELS: &[&str] = &["none", "note", "warning", "error"];
const KINDS: &[&str] = &["notApplicable", "pass", "fail", "review", "open", "informational"];
const ROLES: &[&str] = &["analysisTarget", "attachment", "resultFile", "tracedFile"];
const COLUMNS: &[&str] = &["utf16CodeUnits", "unicodeCodePoints"];
const PLACES: &[&str] = &["function", "member", "module", "namespace", "resource", "type", "variable"];

/// The objects that we write: for each property its name, whether the standard requires it, its type.
/// A property that is not here is none of that object's.
#[rustfmt::skip]
const OBJECTS: &[(&str, &[Property])] = &[
    ("sarifLog", &[("version", MUST, Word(&["2.1.0"])), ("runs", MUST, Objects(0, "run")), ("$schema", MAY, Text)]),
    ("run", &[
        ("tool", MUST, Object("tool")), ("invocations", MAY, Objects(0, "invocation")),
        ("artifacts", MAY, Objects(0, "artifact")), ("columnKind", MAY, Word(COLUMNS)),
        ("results", MAY, Objects(0, "result")), ("properties", MAY, Bag),
    ]),
    ("tool", &[("driver", MUST, Object("toolComponent"))]),
    ("toolComponent", &[
        ("name", MUST, Text), ("version", MAY, Text), ("semanticVersion", MAY, Text),
        ("rules", MAY, Objects(0, "reportingDescriptor")), ("notifications", MAY, Objects(0, "reportingDescriptor")),
    ]),
    ("reportingDescriptor", &[
        ("id", MUST, Text), ("shortDescription", MAY, Object("multiformatMessageString")),
        ("fullDescription", MAY, Object("multiformatMessageString")),
        ("defaultConfiguration", MAY, Object("reportingConfiguration")),
        ("help", MAY, Object("multiformatMessageString")), ("helpUri", MAY, Uri),
    ]),
    ("multiformatMessageString", &[("text", MUST, Text), ("markdown", MAY, Text)]),
    ("reportingConfiguration", &[("level", MAY, Word(LEVELS))]),
    ("invocation", &[
        ("executionSuccessful", MUST, Bool), ("toolExecutionNotifications", MAY, Objects(0, "notification")),
    ]),
    ("notification", &[
        ("message", MUST, Object("message")), ("level", MAY, Word(LEVELS)),
        ("descriptor", MAY, Object("reportingDescriptorReference")),
    ]),
    ("reportingDescriptorReference", &[("id", MAY, Text), ("index", MAY, From(0))]),
    ("message", &[("text", MUST, Text)]),
    ("artifact", &[
        ("location", MAY, Object("artifactLocation")), ("length", MAY, From(0)), ("roles", MAY, Words(ROLES)),
        ("hashes", MAY, Texts),
    ]),
    ("artifactLocation", &[("uri", MUST, Text), ("index", MAY, From(0))]),
    ("result", &[
        ("message", MUST, Object("message")), ("ruleId", MUST, Text), ("ruleIndex", MAY, From(0)),
        ("kind", MAY, Word(KINDS)), ("level", MAY, Word(LEVELS)), ("locations", MAY, Objects(1, "location")),
        ("relatedLocations", MAY, Objects(1, "location")), ("partialFingerprints", MAY, Texts),
    ]),
    ("location", &[
        ("id", MAY, From(0)), ("physicalLocation", MAY, Object("physicalLocation")),
        ("logicalLocations", MAY, Objects(1, "logicalLocation")), ("message", MAY, Object("message")),
        ("properties", MAY, Bag),
    ]),
    ("physicalLocation", &[("artifactLocation", MUST, Object("artifactLocation")), ("region", MAY, Object("region"))]),
    ("region", &[
        ("startLine", MUST, From(1)), ("startColumn", MAY, From(1)), ("endLine", MAY, From(1)),
        ("endColumn", MAY, From(1)), ("byteOffset", MAY, From(0)), ("byteLength", MAY, From(0)),
    ]),
    ("logicalLocation", &[
        ("name", MAY, Text), ("fullyQualifiedName", MUST, Text), ("kind", MAY, Word(PLACES)), ("properties", MAY, Bag),
    ]),
];

/// Holds an object against its row of the table, and what stands in it against theirs.
fn hold(json: &Json, name: &str, path: &str) {
    let Json::Object(members) = json else { panic!("{path} is no object") };
    let (_, rows) = OBJECTS.iter().find(|(object, _)| *object == name).expect("a row of the table");
    for (key, must, _) in *rows {
        assert!(!must || members.contains_key(*key), "{path} lacks {key}");
    }
    for (key, value) in members {
        let row = rows.iter().find(|(row, ..)| row == key);
        let (_, _, ty) = row.unwrap_or_else(|| panic!("{path}: {key} is no property of {name}"));
        hold_type(value, *ty, &format!("{path}/{key}"));
    }
}

fn hold_type(json: &Json, ty: Type, path: &str) {
    match ty {
        Text => assert!(!json.text().is_empty(), "{path} is empty"),
        Bool => assert!(matches!(json, Json::Bool(_)), "{path}"),
        From(least) => assert!(json.number() >= least, "{path}"),
        Word(words) => assert!(words.contains(&json.text()), "{path}: {json:?}"),
        Object(name) => hold(json, name, path),
        Objects(least, name) => {
            assert!(matches!(json, Json::List(items) if items.len() >= least), "{path}");
            json.list().iter().enumerate().for_each(|(i, item)| hold(item, name, &format!("{path}/{i}")));
        }
        Words(words) => json.list().iter().for_each(|word| assert!(words.contains(&word.text()), "{path}")),
        Texts => assert!(matches!(json, Json::Object(texts) if texts.values().all(|t| !t.text().is_empty()))),
        Uri => assert!(is_absolute(json.text()), "{path}: {json:?}"),
        Bag => assert!(matches!(json, Json::Object(_)), "{path}"),
    }
}

/// A scheme, a colon, and nothing but what a URI may have.
fn is_absolute(uri: &str) -> bool {
    let of_a_scheme = |c: char| c.is_ascii_lowercase() || c.is_ascii_digit() || "+-.".contains(c);
    let of_a_uri = |c: char| c.is_ascii_alphanumeric() || "-._~/%:#".contains(c);
    uri.split_once(':').is_some_and(|(scheme, rest)| {
        scheme.starts_with(|c: char| c.is_ascii_lowercase())
            && scheme.chars().all(of_a_scheme)
            && !rest.is_empty()
            && rest.chars().all(of_a_uri)
    })
}

/// A log that the standard admits, with what binds its parts to each other.
fn admitted(text: &str) -> Json {
    let log = Json::read(text);
    hold(&log, "sarifLog", "");
    for run in log.at("runs").list() {
        hold_ids(run);
        let results = run.at("results").list();
        results.iter().for_each(|result| hold_result(run, result));
    }
    log
}

/// No two descriptors have the same id, and references fit.
fn hold_ids(run: &Json) {
    for list in ["tool/driver/rules", "tool/driver/notifications"] {
        let mut ids: Vec<_> = run.at(list).list().iter().map(|rule| rule.at("id").text()).collect();
        ids.sort_unstable();
        assert!(ids.windows(2).all(|pair| pair[0] != pair[1]), "{list}: an id stands twice");
    }
    for notification in run.at("invocations/0/toolExecutionNotifications").list() {
        let descriptor = notification.at("descriptor");
        let index = descriptor.at("index").number();
        assert_eq!(run.at(&format!("tool/driver/notifications/{index}/id")), descriptor.at("id"));
    }
}

fn hold_result(run: &Json, result: &Json) {
    let index = result.at("ruleIndex").number();
    assert_eq!(
        run.at(&format!("tool/driver/rules/{index}/id")),
        result.at("ruleId"),
        "ruleIndex does not fit"
    );
    let related = result.at("relatedLocations").list();
    assert!(!result.at("locations").list().is_empty(), "a result without a place");
    for location in result.at("locations").list().iter().chain(related) {
        hold_place(run, location.at("physicalLocation"));
    }
    assert!(related.iter().all(|location| location.at("id").number() > 0), "a related place without an id");
    hold_links(result.at("message/text").text(), related);
    for key in ["isonkaypu/v1", "primaryLocationLineHash"] {
        assert_eq!(result.at("partialFingerprints").member(key).text().len(), 64, "{key}");
    }
}

/// Every link of a message leads to a related place, and every related place is linked to. Brackets that
/// are none stand behind a backslash.
fn hold_links(message: &str, related: &[Json]) {
    let bare: String = message.replace("\\\\", "").replace("\\[", "").replace("\\]", "");
    let links: Vec<&str> =
        bare.split("](").skip(1).map(|rest| rest.split(')').next().unwrap_or("")).collect();
    let ids: Vec<String> = related.iter().map(|location| location.at("id").number().to_string()).collect();
    assert_eq!(links, ids, "{message}");
    assert_eq!((bare.matches('[').count(), bare.matches(']').count()), (ids.len(), ids.len()), "{message}");
}

/// The artifact's index fits, its URI has no character that a URI has not, and the region is in order.
fn hold_place(run: &Json, place: &Json) {
    let artifact = place.at("artifactLocation");
    let index = artifact.at("index").number();
    assert_eq!(run.at(&format!("artifacts/{index}/location/uri")), artifact.at("uri"));
    let of_a_uri = |c: char| c.is_ascii_alphanumeric() || "-._~/%:".contains(c);
    assert!(artifact.at("uri").text().chars().all(of_a_uri), "{:?}", artifact.at("uri"));
    let region = place.at("region");
    if region != &Json::Null {
        let at = |line: &str, column: &str| (region.at(line).number(), region.at(column).number());
        assert!(at("startLine", "startColumn") <= at("endLine", "endColumn"), "{region:?}");
        let end = region.at("byteOffset").number() + region.at("byteLength").number();
        assert!(end <= run.at(&format!("artifacts/{index}/length")).number(), "{region:?}");
    }
}

#[test]
fn a_faulty_contract() {
    let log = admitted(&shown_ward(show::sarif));
    let results = log.at("runs/0/results").list();
    let ids: Vec<&str> = results.iter().map(|result| result.at("ruleId").text()).collect();
    assert_eq!(ids, ["30", "51", "62"]);
    assert!(results.iter().all(|result| result.at("level").text() == "error"));
    assert_eq!(results[2].at("locations/0/physicalLocation/region/startLine").number(), 34);
    assert_eq!(results[2].at("relatedLocations/0/physicalLocation/region/startLine").number(), 37);
    assert_eq!(results[2].at("locations/0/logicalLocations/0/fullyQualifiedName").text(), "WardStock.issue");
    assert_eq!(log.at("runs/0/invocations/0/executionSuccessful"), &Json::Bool(true));
}

/// Every code and every refusal of an image has its rule, with help.
#[test]
fn the_rules() {
    let log = admitted(&shown_source(show::sarif, &mended()));
    assert_eq!(log.at("runs/0/results"), &Json::List(vec![]), "an accepted contract has no result");
    let rules = log.at("runs/0/tool/driver/rules").list();
    let ids: Vec<&str> = rules.iter().map(|rule| rule.at("id").text()).collect();
    let codes = words::CODES.iter().map(u16::to_string);
    let refusals = (1..=8).map(|n| format!("image-{n}"));
    let ours = ["doubt", "other-text"].map(String::from);
    assert_eq!(ids, codes.chain(refusals).chain(ours).collect::<Vec<_>>());
    assert!(
        rules
            .iter()
            .all(|rule| rule.at("helpUri").text() == format!("urn:isonkaypu:help:{}", rule.at("id").text()))
    );
    for rule in &rules[..rules.len() - 2] {
        for part in ["shortDescription/text", "fullDescription/text", "help/text", "help/markdown"] {
            assert!(rule.at(part).text().len() > 3, "{part} of {:?}", rule.at("id"));
        }
    }
}

/// What could not be read is no success, and nobody who counts results takes it for clean.
#[test]
fn no_image() {
    let log = admitted(&shown(show::sarif, "x", b"no image", None));
    let run = log.at("runs/0");
    assert_eq!(run.at("invocations/0/executionSuccessful"), &Json::Bool(false));
    assert_eq!(run.at("invocations/0/toolExecutionNotifications/0/level").text(), "error");
    assert_eq!(run.at("results").list().len(), 1);
    assert_eq!(run.at("results/0/ruleId").text(), "image-1");
    assert_eq!(run.at("properties/images/0/checked"), &Json::List(vec![]));
}

/// A contract that has no image: the limit's own sentence, at its place.
#[test]
fn not_packed() {
    for limit in common::LIMITS {
        let log = admitted(&common::umlaut(show::sarif, limit));
        let run = log.at("runs/0");
        assert_eq!(run.at("invocations/0/executionSuccessful"), &Json::Bool(false));
        assert_eq!(run.at("results").list().len(), 1);
        let rule = match limit.number() {
            0 => "doubt".to_string(),
            number => format!("image-{number}"),
        };
        assert_eq!(run.at("results/0/ruleId").text(), rule);
        let said = [run.at("results/0"), run.at("invocations/0/toolExecutionNotifications/0")];
        for said in said {
            assert!(said.at("message/text").text().contains(&limit.to_string()), "{limit}");
        }
        let region = run.at("results/0/locations/0/physicalLocation/region");
        assert_eq!((region.at("startLine").number(), region.at("startColumn").number()), (2, 13));
        assert_eq!(region.at("endColumn").number(), 24);
    }
    // without its text there are no bytes to speak of, and no place
    let log = admitted(&common::not_packed(show::sarif, isonkaypu::Limit::Nodes, (3, 9), None));
    let run = log.at("runs/0");
    assert_eq!(run.at("results/0/locations/0/physicalLocation/region"), &Json::Null);
    assert_eq!((run.at("artifacts/0/length"), run.at("artifacts/0/hashes")), (&Json::Null, &Json::Null));
}

#[test]
fn without_the_source() {
    let log = admitted(&shown(show::sarif, "ward.image", &sample("ward.image"), None));
    for result in log.at("runs/0/results").list() {
        let place = result.at("locations/0/physicalLocation");
        assert_eq!(
            (place.at("artifactLocation/uri").text(), place.at("region")),
            ("ward.image", &Json::Null)
        );
        assert!(
            result.at("locations/0/logicalLocations/0/fullyQualifiedName").text().starts_with("WardStock")
        );
        assert!(result.at("locations/0/properties/node").number() > 0);
    }
}

#[test]
fn sources_and_spans_of_all_sorts() {
    admitted(&hostile(show::sarif));
    admitted(&crossing(show::sarif));
    for (seed, image) in (0..100).zip(images().iter().cycle()) {
        let mut chance = Chance::new(seed);
        let pieces = chance.below(60);
        let source = chance.nasty(pieces);
        let label = String::from_utf8_lossy(&chance.nasty(8)).into_owned();
        let other = respanned(image, |_| chance.span(source.len()));
        let fits = fitted(image, &mut chance, |chance| chance.nasty(3));
        for (image, source) in [(&other, &source), (&fits.0, &fits.1)] {
            let log = admitted(&shown(show::sarif, &label, image, Some(source)));
            assert!(!log.at("runs/0/results").list().is_empty());
        }
    }
}

/// The sentence links to the related place in the words that the place has.
#[test]
fn related_places_are_linked() {
    let log = admitted(&shown_ward(show::sarif));
    let message = log.at("runs/0/results/2/message/text").text();
    assert!(
        message.ends_with(
            " See [its second use, taken by the call `send`](1), [used here, taken by the call `send`](2)."
        ),
        "{message}"
    );
    // what stands in a link is what its place is called
    for source in words::codes().iter().map(|entry| &entry.before) {
        let log = admitted(&shown_source(show::sarif, source));
        for result in log.at("runs/0/results").list() {
            for place in result.at("relatedLocations").list() {
                let link = format!("[{}]({})", place.at("message/text").text(), place.at("id").number());
                assert!(result.at("message/text").text().contains(&link), "{link}");
            }
        }
    }
}

/// Document 01's P9: the message leads to the use and to the clause.
#[test]
fn burned_and_sent() {
    let log = admitted(&shown_source(show::sarif, BURNED_AND_SENT));
    let result = log.at("runs/0/results/0");
    let message = result.at("message/text").text();
    assert!(message.contains("since its `burns` clause is a use too"), "{message}");
    let see = " See [its second use, taken by the call `send`](1), [this clause is its first use](2).";
    assert!(message.ends_with(see), "{message}");
    let line = |place: &Json| place.at("physicalLocation/region/startLine").number();
    let places = result.at("relatedLocations").list();
    assert_eq!(places.iter().map(line).collect::<Vec<_>>(), [6, 4]);
    let listed: Vec<&Json> = places.iter().map(|place| place.at("properties/listed")).collect();
    assert_eq!(listed, [&Json::Bool(true), &Json::Bool(false)]);
    let related = common::related_of_62(BURNED_AND_SENT).expect("a related place");
    assert_eq!(places[0].at("properties/node").number(), related.node as u64);
    let start = places[0].at("physicalLocation/region/byteOffset").number();
    assert_eq!(start, u64::from(related.span.start));
}

/// `burns` alone makes two uses: the message leads to both clauses.
#[test]
fn burned_twice() {
    let log = admitted(&shown_source(show::sarif, BURNED_TWICE));
    let results = log.at("runs/0/results").list();
    let result = results.iter().find(|result| result.at("ruleId").text() == "62").expect("a 62");
    let places = result.at("relatedLocations").list();
    let line = |place: &Json| place.at("physicalLocation/region/startLine").number();
    assert_eq!(places.iter().map(line).collect::<Vec<_>>(), [5, 6]);
    assert!(places.iter().all(|place| place.at("properties/listed") == &Json::Bool(false)));
    assert_eq!(common::related_of_62(BURNED_TWICE), None);
}

/// The fingerprints of a contract's results, in their order.
fn fingerprints(source: &str) -> Vec<String> {
    let log = admitted(&shown_source(show::sarif, source));
    let print = |result: &Json| result.at("partialFingerprints").member("isonkaypu/v1").text().to_string();
    log.at("runs/0/results").list().iter().map(print).collect()
}

/// A result keeps its fingerprint when lines move, and no two results of a contract share one.
#[test]
fn fingerprints_stay() {
    let prints = fingerprints(&common::ward());
    assert_eq!(prints.len(), 3);
    assert_eq!(fingerprints(&format!("// a remark\n\n{}", common::ward())), prints);
    let other_amount = common::ward().replace("limit = 500;", "limit = 500; issued = 0;");
    assert_eq!(fingerprints(&other_amount), prints);
    let mended_one = common::ward().replace("emit Destroyed();", "");
    assert_eq!(fingerprints(&mended_one), prints[1..]);
    let source = "contract C { entry e() { emit A(); emit A(); emit B(); } entry f() { emit A(); } }";
    let mut prints = fingerprints(source);
    assert_eq!(prints.len(), 4);
    prints.sort_unstable();
    prints.dedup();
    assert_eq!(prints.len(), 4, "two results have one fingerprint");
}

/// Several contracts are one run, each result at its own file.
#[test]
fn several() {
    let reports = ["contract C { invariant x; }", "contract D { }", "contract E { invariant y; }"]
        .map(|text| isonkaypu::check_image(&example::image(text)).expect("an image"));
    let label = ["a b/c.image", "d.image", "/e.image"];
    let subjects: Vec<_> =
        label.iter().zip(&reports).map(|(l, report)| show::Subject::checked(l, report)).collect();
    let log = admitted(&show::sarif_of(&subjects));
    assert_eq!(log.at("runs").list().len(), 1);
    let uri =
        |result: &Json| result.at("locations/0/physicalLocation/artifactLocation/uri").text().to_string();
    let uris: Vec<String> = log.at("runs/0/results").list().iter().map(uri).collect();
    assert_eq!(uris, ["a%20b/c.image", "file:///e.image"]);
    assert_eq!(log.at("runs/0/properties/images").list().len(), 3);
}
