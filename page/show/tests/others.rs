//! The other places of a fault: document 01's related place, and those that the tree has beside it.

use crate::common::json::Json;
use crate::common::{shown, shown_source};
use isonkaypu::check_image;
use show::{Fault, Mark, faults};

/// The only fault of this code in a contract's text.
fn of(code: u16, text: &str) -> Fault {
    let report = check_image(&example::image(text)).unwrap_or_else(|refusal| panic!("{refusal}: {text}"));
    faults(&report)
        .into_iter()
        .find(|fault| fault.code == code)
        .unwrap_or_else(|| panic!("no {code}: {text}"))
}

/// A place as its line, from where it begins, and what is said of it.
fn at<'a>(text: &'a str, mark: &'a Mark) -> (&'a str, &'a str, bool) {
    let rest = &text[mark.span.start as usize..];
    (rest.split(['\n', ';']).next().expect("a line").trim(), &mark.label, mark.listed)
}

/// Contracts, the code of their fault, and its other places.
type Row = (u16, &'static str, &'static [(&'static str, &'static str, bool)]);

const FIRST_BY_CLAUSE: &str = "this clause is its first use";
const FIRST: &str = "used here, taken by the call `send`";
const SECOND: &str = "its second use, taken by the call `send`";
const MORE: &str = "used once more here, taken by the call `send`";
const FOR_EACH: &str = "this clause is a use for each `lot` that it burns";

const ROWS: &[Row] = &[
    (
        24,
        "contract C { state { x: u8; } entry e(x: u64) { } state { x: u16; } }",
        &[("x: u16", "the state field", false)],
    ),
    (
        26,
        "contract C { entry e() { guard x > 1; let y = 2; let x = 3; } }",
        &[("let x = 3", "its `let`", false)],
    ),
    (28, "contract C { state { x: u8; } entry e() { let x = 3; } }", &[("x: u8", "the state field", false)]),
    (
        29,
        "contract C { entry f(x: u8) { } entry e(y: u8, x: u64) { let x = 3; } }",
        &[("x: u64) { let x = 3", "the parameter", false)],
    ),
    (
        31,
        "contract C { event E(); entry e() { emit E(1); } event E(a: u8, b: u8); }",
        &[("E(a: u8, b: u8)", "its last declaration", false)],
    ),
    (20, "contract C { state { x: u8; x: u16; } }", &[("x: u8", "declared first here", true)]),
    (
        62,
        "contract C { asset M; entry e(lot: Q_Asset<M>, to: Q_Address) burns M {\nsend(to,\nlot); } }",
        &[("M {", FIRST_BY_CLAUSE, false), ("lot)", SECOND, true)],
    ),
    (
        62,
        "contract C { asset M; entry e(lot: Q_Asset<M>) burns M { send(1, lot); send(2, lot, 2); f = lot; } }",
        &[
            ("M { send(1, lot)", FIRST_BY_CLAUSE, false),
            ("lot)", SECOND, true),
            ("lot, 2)", MORE, false),
            ("lot", "used once more here, stored in `f`", false),
        ],
    ),
    (
        62,
        "contract C { entry e(lot: Q_Asset<M>) { send(1, lot); send(2, lot, 2); } }",
        &[("lot)", FIRST, false), ("lot, 2)", SECOND, true)],
    ),
    (
        62,
        "contract C { entry e(lot: Q_Asset<M>) { send(1, lot); send(2, lot, 2); send(3, checked(lot)); } }",
        &[("lot)", FIRST, false), ("lot, 2)", SECOND, true), ("lot))", MORE, false)],
    ),
    // one clause, two parameters of one name: it marks the first of them twice, and is shown once
    (
        62,
        "contract C { asset M; entry e(lot: Q_Asset<M>, lot: Q_Asset<M>) burns M { send(1, lot); } }",
        &[("M { send(1, lot)", FOR_EACH, false)],
    ),
    // two clauses, each for one of them
    (
        62,
        "contract C { asset M; asset N; entry e(lot: Q_Asset<M>, lot: Q_Asset<N>) burns N burns M { } }",
        &[("N burns M { } }", FOR_EACH, false), ("M { } }", FOR_EACH, false)],
    ),
    // of two clauses with one asset the first is meant
    (
        62,
        "contract C { asset M; entry e(lot: Q_Asset<M>) burns M burns M { send(1, lot); } }",
        &[("M burns M { send(1, lot)", FIRST_BY_CLAUSE, false), ("lot)", SECOND, true)],
    ),
    // the mark is on the first of two rows, and the uses are on the last
    (
        62,
        "contract C { asset M; entry e(lot: Q_Asset<M>, lot: Q_Asset<N>) burns M { send(1, lot); f = lot; } }",
        &[("lot)", FIRST, false), ("lot", "its second use, stored in `f`", true)],
    ),
    (
        62,
        "contract C { asset M; entry e(lot: Q_Asset<M>) burns M { let lot = mint(1); send(1, lot); f = lot; } }",
        &[("lot)", FIRST, false), ("lot", "its second use, stored in `f`", true)],
    ),
    (30, "contract C { entry e() { emit E(); } }", &[]),
];

#[test]
fn every_other_place() {
    for (code, text, expected) in ROWS {
        let fault = of(*code, text);
        let places: Vec<_> = fault.others.iter().map(|mark| at(text, mark)).collect();
        assert_eq!(places, *expected, "{code}: {text}");
        assert!(fault.here.listed);
    }
}

/// The place that is marked as listed is the library's, and no other is.
#[test]
fn the_listed_place_is_the_librarys() {
    for (_, text, _) in ROWS {
        let report = check_image(&example::image(text)).expect("an image");
        for (offence, fault) in report.offences().iter().zip(faults(&report)) {
            let listed: Vec<usize> = fault.others.iter().filter(|o| o.listed).map(|o| o.node).collect();
            let related: Vec<usize> = offence.related.iter().map(|place| place.node).collect();
            assert_eq!(listed, related, "{}: {text}", offence.code);
        }
    }
}

/// In JSON and SARIF document 01's own place stands first and is marked; the others are marked as found.
#[test]
fn programs_can_tell_them_apart() {
    for (code, text, expected) in ROWS {
        let json = Json::read(&shown_source(show::json, text));
        let of_code = |offence: &&Json| offence.at("code").number() == u64::from(*code);
        let offence = json.at("offences").list().iter().find(of_code).expect("the offence");
        let listed = |list: &Json, path: &str| {
            list.list().iter().map(|one| one.at(path) == &Json::Bool(true)).collect()
        };
        let said: Vec<bool> = listed(offence.at("related"), "listed");
        let mut wanted: Vec<bool> = expected.iter().map(|(_, _, listed)| *listed).collect();
        wanted.sort_unstable_by_key(|listed| !listed);
        assert_eq!(said, wanted, "{code}");
        let sarif = Json::read(&shown_source(show::sarif, text));
        let results = sarif.at("runs/0/results").list();
        let result = results.iter().find(|r| r.at("ruleId").text() == code.to_string()).expect("the result");
        if !expected.is_empty() {
            let said: Vec<bool> = listed(result.at("relatedLocations"), "properties/listed");
            assert_eq!(said, wanted, "{code}");
        }
    }
}

/// The numbers stay document 01's: its related node, or 0. (`oracle/page` holds them to its plain reading.)
#[test]
fn numbers_have_document_01s_place_alone() {
    for (code, text, expected) in ROWS {
        let image = example::image(text);
        let numbers = shown(show::numbers, "x", &image, None);
        let record =
            numbers.lines().skip(4).find(|line| line.starts_with(&format!("{code} "))).expect("a record");
        let related = record.split(' ').nth(2).expect("related");
        assert_eq!(related != "0", expected.iter().any(|(_, _, listed)| *listed), "{record}");
    }
}

/// The text and the page show each of them.
#[test]
fn people_see_them_all() {
    for (_, text, expected) in ROWS {
        let [plain, html] = [show::text, show::html].map(|form| shown_source(form, text));
        for (_, label, _) in *expected {
            assert!(plain.contains(label), "{label}: {plain}");
            assert!(html.contains(&in_html(label)), "{label}");
        }
    }
}

/// Words as the page has them: what stands between backquotes is code.
fn in_html(words: &str) -> String {
    let parts = words.split('`').enumerate();
    parts
        .map(|(i, part)| if i % 2 == 1 { format!("<code>{part}</code>") } else { part.to_string() })
        .collect()
}
