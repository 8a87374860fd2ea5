//! The entry that a fault stands in, in every form, and the faults grouped by entry: reviewers are assigned by
//! entry, and two entries can have one name.

use crate::common::json::Json;
use crate::common::{images, shown, shown_source};
use isonkaypu::{Entry, check_image};
use show::{Fault, Subject, by_entry, faults};

/// Faults in no entry, in two entries of one name, and in one of another name. By entry they stand in another order
/// than in the list, and those outside of the entries in another one than in the text.
const WARD: &str = "\
contract Ward {
    invariant issued > 1;
    entry issue(lot: Q_Asset<Morphine>) { }
    entry issue(box: Q_Asset<Morphine>, ward: u64) {
        emit Issued();
    }
    genesis { emit Opened(); }
    entry close() { emit Closed(); }
}
";

/// The list: code and place, and the entry's node and line, 0 outside of the entries.
const LIST: [(u64, &str, u64, u64); 6] = [
    (30, "emit Issued();", 14, 4),
    (30, "emit Closed();", 31, 8),
    (30, "emit Opened();", 0, 0),
    (50, "issued", 0, 0),
    (61, "lot", 6, 3),
    (61, "box", 14, 4),
];

/// The groups: the entry's node and name, and which of the list stand in it.
const GROUPS: [(u64, &str, &[usize]); 4] =
    [(0, "", &[2, 3]), (6, "issue", &[4]), (14, "issue", &[0, 5]), (31, "close", &[1])];

fn grouped(form: fn(&Subject) -> String, text: &str, with_source: bool) -> String {
    let report = check_image(&example::image(text)).expect("an image");
    let subject = Subject::checked("ward.quanta", &report).by_entry();
    match with_source {
        true => form(&subject.with_source("ward.quanta", text.as_bytes())),
        false => form(&subject),
    }
}

/// Document 02: "the report program prints the word after related".
#[test]
fn numbers() {
    let expected = "\
resolve 30 26 147 161
access 50 4 30 36
linear 61 9 58 61
list 6
30 26 0 14 147 161
30 33 0 31 219 233
30 29 0 0 182 196
50 4 0 0 30 36
61 9 0 6 58 61
61 17 0 14 102 105
";
    assert_eq!(shown_source(show::numbers, WARD), expected);
    assert_eq!(grouped(show::numbers, WARD, true), expected);
}

const ISSUED: &str = "\
[30] the event `Issued` is emitted, but declared nowhere
  in entry `issue` (line 4)
  ward.quanta:5:9
  5 |         emit Issued();
    |         ^^^^^^^^^^^^^^ emitted here
  mend: declare `event Issued();` in the contract, or emit an event that is declared

";
const CLOSED: &str = "\
[30] the event `Closed` is emitted, but declared nowhere
  in entry `close`
  ward.quanta:8:21
  8 |     entry close() { emit Closed(); }
    |                     ^^^^^^^^^^^^^^ emitted here
  mend: declare `event Closed();` in the contract, or emit an event that is declared

";
const OPENED: &str = "\
[30] the event `Opened` is emitted, but declared nowhere
  outside of the entries
  ward.quanta:7:15
  7 |     genesis { emit Opened(); }
    |               ^^^^^^^^^^^^^^ emitted here
  mend: declare `event Opened();` in the contract, or emit an event that is declared

";

/// The faults of the text, in the list's order.
fn of_the_text(text: &str) -> Vec<String> {
    let (_, rest) = text.split_once("\n\n").expect("the first line");
    let (faults, _) = rest.split_once("6 faults: ").expect("the end");
    let blocks = faults.split_inclusive("\n\n").filter(|block| block.starts_with('['));
    blocks.map(str::to_string).collect()
}

#[test]
fn text() {
    let text = shown_source(show::text, WARD);
    let blocks = of_the_text(&text);
    assert_eq!(blocks.len(), 6);
    assert_eq!(blocks[..3], [ISSUED, CLOSED, OPENED]);
    let within: Vec<&str> = blocks.iter().map(|block| block.lines().nth(1).expect("a line")).collect();
    let [outside, close] = ["  outside of the entries", "  in entry `close`"];
    let [first, second] = ["  in entry `issue` (line 3)", "  in entry `issue` (line 4)"];
    assert_eq!(within, [second, close, outside, outside, first, second]);
    let list = format!("REFUSED  ward.quanta: 6 faults\n\n{}6 faults: ", blocks.concat());
    assert!(text.starts_with(&list), "{text}");
}

#[test]
fn text_by_entry() {
    let blocks = of_the_text(&shown_source(show::text, WARD));
    let text = grouped(show::text, WARD, true);
    let expected = [
        "REFUSED  ward.quanta: 6 faults\n\nOutside of the entries: 2 faults\n\n",
        &blocks[2],
        &blocks[3],
        "Entry `issue`, line 3: 1 fault\n\n",
        &blocks[4],
        "Entry `issue`, line 4: 2 faults\n\n",
        &blocks[0],
        &blocks[5],
        "Entry `close`, line 8: 1 fault\n\n",
        &blocks[1],
        "6 faults: names 3, access 1, lots 2\n",
    ];
    assert!(text.starts_with(&expected.concat()), "{text}");
    // below the faults nothing is new
    let end = |text: &str| text.split_once("6 faults: ").expect("the end").1.to_string();
    assert_eq!(end(&text), end(&shown_source(show::text, WARD)));
}

#[test]
fn text_without_the_source() {
    let text = shown(show::text, "ward.image", &example::image(WARD), None);
    let places: Vec<&str> = text.lines().filter(|line| line.contains(", node ")).collect();
    let expected = [
        "  in entry `issue` (node 14), node 26, bytes 147 to 161: emitted here",
        "  in entry `close`, node 33, bytes 219 to 233: emitted here",
        "  outside of the entries, node 29, bytes 182 to 196: emitted here",
        "  outside of the entries, node 4, bytes 30 to 36: named here",
        "  in entry `issue` (node 6), node 9, bytes 58 to 61: this lot",
        "  in entry `issue` (node 14), node 17, bytes 102 to 105: this lot",
    ];
    assert_eq!(places, expected);
    let text = grouped(show::text, WARD, false);
    let headings: Vec<&str> =
        text.lines().filter(|line| line.ends_with(" fault") || line.ends_with(" faults")).collect();
    let expected = [
        "REFUSED  ward.quanta: 6 faults",
        "Outside of the entries: 2 faults",
        "Entry `issue`, node 6: 1 fault",
        "Entry `issue`, node 14: 2 faults",
        "Entry `close`, node 31: 1 fault",
    ];
    assert_eq!(headings, expected);
}

/// Where there is nothing to group, the text is as it is without.
#[test]
fn nothing_to_group() {
    assert_eq!(grouped(show::text, "contract C { }", true), shown_source(show::text, "contract C { }"));
    let no_image = check_image(b"no image").expect_err("a refusal");
    let subject = || Subject::no_image("x", b"no image", no_image);
    assert_eq!(show::text(&subject().by_entry()), show::text(&subject()));
}

/// The entry of a JSON report, as node and line; its name is checked on the way.
fn entry_of(entry: &Json) -> (u64, u64) {
    if entry == &Json::Null {
        return (0, 0);
    }
    let from = entry.at("span/from").number() as usize;
    let begins = format!("entry {}(", entry.at("name").text());
    assert!(WARD[from..].starts_with(&begins), "{begins}");
    assert_eq!(WARD.as_bytes()[entry.at("span/to").number() as usize - 1], b'}');
    (entry.at("node").number(), entry.at("region/start_line").number())
}

#[test]
fn json() {
    let json = Json::read(&shown_source(show::json, WARD));
    assert_eq!(json.at("schema").text(), "isonkaypu-report-4");
    let offences = json.at("offences").list();
    let of = |offence: &Json| {
        let span = ["from", "to"].map(|end| offence.at(&format!("place/span/{end}")).number() as usize);
        let (node, line) = entry_of(offence.at("entry"));
        (offence.at("code").number(), &WARD[span[0]..span[1]], node, line)
    };
    assert_eq!(offences.iter().map(of).collect::<Vec<_>>(), LIST);
    let groups = json.at("by_entry").list();
    for (group, (node, name, inside)) in groups.iter().zip(GROUPS) {
        let (of_group, _) = entry_of(group.at("entry"));
        assert_eq!((of_group, group.at("count").number()), (node, inside.len() as u64));
        assert!(node == 0 || group.at("entry/name").text() == name);
        let numbers = group.at("offences").list().iter().map(|i| i.number() as usize);
        assert!(numbers.clone().eq(inside.iter().copied()));
        assert!(numbers.into_iter().all(|i| offences[i].at("entry") == group.at("entry")));
    }
    assert_eq!(groups.len(), GROUPS.len());
    // without the source there is no line
    let without = Json::read(&shown(show::json, "x", &example::image(WARD), None));
    assert_eq!(without.at("offences/0/entry/node").number(), 14);
    assert_eq!(without.at("offences/0/entry/region"), &Json::Null);
    assert_eq!(grouped(show::json, WARD, true), shown_source(show::json, WARD));
}

#[test]
fn sarif() {
    for text in [shown_source(show::sarif, WARD), shown(show::sarif, "x", &example::image(WARD), None)] {
        let log = Json::read(&text);
        let results = log.at("runs/0/results").list();
        assert_eq!(results.len(), LIST.len());
        for (result, (code, _, node, _)) in results.iter().zip(LIST) {
            assert_eq!(result.at("ruleId").text(), code.to_string());
            let [place] = result.at("locations/0/logicalLocations").list() else { panic!("{result:?}") };
            let (_, name, _) = GROUPS.iter().find(|(of, ..)| *of == node).expect("its group");
            let said = ["name", "fullyQualifiedName", "kind"].map(|key| place.at(key).text());
            match node {
                0 => assert_eq!(said, ["Ward", "Ward", "type"]),
                _ => assert_eq!(said, [*name, &format!("Ward.{name}"), "function"]),
            }
            match node {
                0 => assert_eq!(place.at("properties"), &Json::Null),
                _ => assert_eq!(place.at("properties/node").number(), node),
            }
        }
    }
}

/// A related place has its own entry: the first of two entries with one signature is not the one of the fault.
#[test]
fn sarif_of_related_places() {
    let source = "contract C { entry e(x: u8) { } entry e(y: u8) { } }";
    let log = Json::read(&shown_source(show::sarif, source));
    let result = log.at("runs/0/results/0");
    assert_eq!(result.at("ruleId").text(), "23");
    let node = |place: &str| result.at(&format!("{place}/0/logicalLocations/0/properties/node")).number();
    assert_eq!([node("locations"), node("relatedLocations")], [8, 2]);
}

#[test]
fn html() {
    let html = shown_source(show::html, WARD);
    let contents = "<ul class=\"contents\"><li><a href=\"#group-1\">Outside of the entries</a>: 2 faults</li>\
                    <li><a href=\"#group-2\">Entry <code>issue</code></a>, line 3: 1 fault</li>\
                    <li><a href=\"#group-3\">Entry <code>issue</code></a>, line 4: 2 faults</li>\
                    <li><a href=\"#group-4\">Entry <code>close</code></a>, line 8: 1 fault</li></ul>";
    assert!(html.contains(contents), "{html}");
    let groups: Vec<&str> = html.split("<h3 id=\"group-").skip(1).collect();
    let headings = [
        "1\">Outside of the entries</h3>",
        "2\">Entry <code>issue</code> <a class=\"at\" href=\"#line-3\">line 3</a></h3>",
        "3\">Entry <code>issue</code> <a class=\"at\" href=\"#line-4\">line 4</a></h3>",
        "4\">Entry <code>close</code> <a class=\"at\" href=\"#line-8\">line 8</a></h3>",
    ];
    // from top to bottom, as the text with its marks stands above
    let cards: [&[&str]; 4] = [&["issued", "Opened"], &["lot"], &["box", "Issued"], &["Closed"]];
    assert_eq!(groups.len(), headings.len());
    for ((group, heading), cards) in groups.iter().zip(headings).zip(cards) {
        assert!(group.starts_with(heading), "{heading}");
        let titles = group.split("<h4 ").skip(1).map(|card| card.split("</h4>").next().expect("a title"));
        let names = titles.map(|title| {
            title.split("<code>").nth(1).and_then(|rest| rest.split("</code>").next()).expect("a name")
        });
        assert_eq!(names.collect::<Vec<_>>(), cards);
    }
    let without = shown(show::html, "x", &example::image(WARD), None);
    assert!(
        without.contains("3\">Entry <code>issue</code> <span class=\"at\">node 14</span></h3>"),
        "{without}"
    );
}

/// The faults of a contract, and what the groups of them say.
fn groups_of(image: &[u8]) -> Vec<(Option<Entry>, Vec<Fault>)> {
    let report = check_image(image).expect("an image");
    let faults = faults(&report);
    let groups = by_entry(&faults);
    let inside = |group: &show::Group| group.faults.iter().map(|i| faults[*i].clone()).collect();
    groups.iter().map(|group| (group.entry.cloned(), inside(group))).collect()
}

/// On every example: each fault once, entries in their order, and each fault where it says that it stands.
#[test]
fn every_fault_stands_in_one_group() {
    for image in images().iter().chain([&example::image(WARD)]) {
        let report = check_image(image).expect("an image");
        let tree = report.tree().expect("a tree");
        let groups = groups_of(image);
        let nodes: Vec<usize> = groups.iter().map(|(e, _)| e.as_ref().map_or(0, |e| e.place.node)).collect();
        assert!(nodes.is_sorted_by(|a, b| a < b), "{nodes:?}");
        for (entry, inside) in &groups {
            assert!(!inside.is_empty() && inside.iter().all(|fault| fault.entry == *entry));
            let around = |fault: &Fault| tree.entry_of(fault.here.node);
            assert!(inside.iter().all(|fault| around(fault) == entry.as_ref().map(|e| e.place.node)));
        }
        let listed = faults(&report);
        let mut all: Vec<&Fault> = groups.iter().flat_map(|(_, inside)| inside).collect();
        assert_eq!(all.len(), listed.len());
        let at = |fault: &Fault| listed.iter().position(|one| one == fault).expect("it is listed");
        all.sort_by_key(|fault| at(fault));
        assert!(all.into_iter().eq(&listed));
        assert!(groups.iter().all(|(_, inside)| inside.iter().is_sorted_by_key(&at)));
    }
}
