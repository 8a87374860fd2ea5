//! Every clause and every use of a lot stands in every form, as the library gives it.

use crate::common::contracts::{BURNED_AND_SENT, BURNED_TWICE};
use crate::common::json::Json;
use crate::common::{sample, shown, shown_source};
use isonkaypu::{Reason, check_image};
use show::faults;

/// How many uses a lot has in `many_uses`, beside the clause.
const MANY: usize = 40;

/// A lot that a clause burns, that 39 calls take and one assignment stores, each in its own line.
fn many_uses() -> String {
    let calls: String = (1..MANY).map(|i| format!("        send({i}, lot);\n")).collect();
    format!(
        "contract C {{\n    asset M;\n    state {{ stock: Q_Asset<M>; }}\n    entry e(lot: Q_Asset<M>)\n        \
         burns M\n        writes stock\n    {{\n{calls}        stock = lot;\n    }}\n}}\n"
    )
}

/// What the library says of the only 62 of a source: node and consumer of each reason, 0 for a clause.
fn reasons(source: &str) -> Vec<[u64; 2]> {
    let image = example::image(source);
    let report = check_image(&image).expect("an image");
    let offence = report.offences().iter().find(|offence| offence.code == 62).expect("a 62");
    let lot = isonkaypu::why(&image, offence.place.node).expect("a lot");
    assert_eq!(offence.reasons.as_ref(), Some(&lot.reasons));
    let words =
        |reason: &Reason| [Some(reason.place()), reason.consumer()].map(|p| p.map_or(0, |p| p.node as u64));
    lot.reasons.iter().map(words).collect()
}

#[test]
fn people_see_every_use() {
    let source = many_uses();
    let text = shown_source(show::text, &source);
    let places = text.lines().filter(|line| line.starts_with("  ward.quanta:")).count();
    assert_eq!(places, 1 + 1 + MANY, "the lot, the clause, each use");
    for i in 1..MANY {
        assert!(text.contains(&format!(" |         send({i}, lot);\n")), "{i}");
    }
    assert_eq!(text.matches(" --- used once more here, taken by the call `send`\n").count(), MANY - 2);
    assert!(text.contains(" --- used once more here, stored in `stock`\n"), "{text}");
    let without = shown(show::text, "ward.image", &example::image(&source), None);
    assert_eq!(without.lines().filter(|line| line.starts_with("  in entry `e`, node ")).count(), places);
    let html = shown_source(show::html, &source);
    let (_, row) = html.split_once("<dt>Every use of it</dt><dd>").expect("a row");
    let (row, _) = row.split_once("</dd>").expect("its end");
    assert_eq!(row.matches("<code class=\"excerpt\">").count(), 1 + MANY);
    assert_eq!(row.matches("taken by the call <code>send</code>").count(), MANY - 1);
    assert_eq!(row.matches("stored in <code>stock</code>").count(), 1);
}

#[test]
fn programs_get_every_use() {
    let source = many_uses();
    let sarif = Json::read(&shown_source(show::sarif, &source));
    let places = sarif.at("runs/0/results/0/relatedLocations").list();
    let message = |place: &Json, words: &str| place.at("message/text").text().contains(words);
    assert_eq!(places.len(), 1 + MANY);
    assert_eq!(places.iter().filter(|place| message(place, "taken by the call `send`")).count(), MANY - 1);
    assert_eq!(places.iter().filter(|place| message(place, "stored in `stock`")).count(), 1);
    assert_eq!(places.iter().filter(|place| message(place, "this clause is its first use")).count(), 1);
}

/// The reasons of JSON are the library's, each with its line: two of one clause, where that burns two.
#[test]
fn json_has_the_librarys_reasons() {
    let twice_by_one = "contract C { asset M; entry e(x: Q_Asset<M>, x: Q_Asset<M>) burns M { } }";
    for source in [&many_uses(), BURNED_AND_SENT, BURNED_TWICE, twice_by_one] {
        let json = Json::read(&shown_source(show::json, source));
        let offence = json.at("offences").list().iter().find(|o| o.at("code").number() == 62).expect("a 62");
        let said = offence.at("reasons").list();
        let node = |place: &Json| if *place == Json::Null { 0 } else { place.at("node").number() };
        let words = |one: &Json| [node(one.at("place")), node(one.at("consumer"))];
        assert_eq!(said.iter().map(words).collect::<Vec<_>>(), reasons(source), "{source}");
        for one in said {
            let is_clause = one.at("kind").text() == "clause";
            assert_eq!(is_clause, *one.at("consumer") == Json::Null);
            for place in [one.at("place"), one.at("consumer")].into_iter().filter(|p| **p != Json::Null) {
                let from = place.at("span/from").number() as usize;
                let line = source[..from].matches('\n').count() as u64 + 1;
                assert_eq!(place.at("region/start_line").number(), line);
                assert!(!place.at("label").text().is_empty());
            }
        }
    }
}

/// 61 has no reason, and other codes speak of none.
#[test]
fn faults_without_reasons() {
    let p2 = Json::read(&shown(show::json, "p2.image", &sample("p2.image"), None));
    assert_eq!((p2.at("offences/0/code").number(), p2.at("offences/0/reasons").list()), (61, &[][..]));
    for entry in words::codes() {
        let report = check_image(&example::image(&entry.before)).expect("an image");
        for fault in faults(&report) {
            assert_eq!(fault.reasons.is_some(), [61, 62].contains(&fault.code), "{}", fault.code);
        }
    }
}
