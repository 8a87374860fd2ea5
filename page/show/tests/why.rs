//! The answer why one lot is refused, as people read it.

use crate::common::contracts::{BURNED_AND_SENT, BURNED_TWICE};
use crate::common::shown_source;
use isonkaypu::{Lot, check_image};
use show::Subject;

type Form = fn(&Subject, &Lot) -> String;

/// What is said of the lot with this number among the lots of a contract's text, without the last line.
fn of(form: Form, text: &str, lot: usize, source: Option<&str>) -> String {
    let image = example::image(text);
    let report = check_image(&image).expect("an image");
    let place = isonkaypu::lots(&image).expect("lots")[lot].place.node;
    let subject = Subject::checked("ward.image", &report);
    let subject = match source {
        Some(source) => subject.with_source("ward.quanta", source.as_bytes()),
        None => subject,
    };
    let said = form(&subject, &report.why(place).expect("a lot"));
    said.strip_suffix(&format!("{}\n", show::made_by())).expect("who says so").to_string()
}

const FINE: &str = "contract C {\n    asset M;\n    entry e(lot: Q_Asset<M>, box: Q_Asset<N>, to: Q_Address)\n        \
                    burns M\n    {\n        send(to, box);\n    }\n}\n";

#[test]
fn a_lot_with_one_use() {
    let by_clause = "\
1 USE  ward.quanta: the lot `lot` of entry `e`, node 7

  ward.quanta:3:13
  3 |     entry e(lot: Q_Asset<M>, box: Q_Asset<N>, to: Q_Address)
    |             ^^^ this lot
  ward.quanta:4:15
  4 |         burns M
    |               - this clause is its only use

A lot is used exactly once, and this one is. Whether the contract has other faults is not said here:
`isonkaypu check` says it.
Read more: `isonkaypu explain use`
";
    assert_eq!(of(show::why, FINE, 0, Some(FINE)), by_clause);
    let in_a_statement = "
  in entry `e`, node 13, bytes 55 to 58: this lot
  in entry `e`, node 28, bytes 126 to 129: used here, taken by the call `send`

";
    let said = of(show::why, FINE, 1, None);
    assert!(said.starts_with("1 USE  ward.image: the lot `box` of entry `e`, node 13\n"), "{said}");
    assert!(said.contains(in_a_statement), "{said}");
}

/// A lot with a fault: between the first line and what the number means, the report's own words and lines on it.
#[test]
fn a_lot_with_a_fault() {
    let said = of(show::why, BURNED_AND_SENT, 0, Some(BURNED_AND_SENT));
    let [first, fault, meaning] = said.split("\n\n").collect::<Vec<_>>()[..] else { panic!("{said}") };
    assert_eq!(first, "2 USES  ward.quanta: the lot `lot` of entry `destroy`, node 7");
    let report = shown_source(show::text, BURNED_AND_SENT);
    assert!(fault.starts_with("[62] ") && report.contains(&format!("\n\n{fault}\n\n")), "{fault}");
    let expected = "\
A lot is used exactly once. This one has 2 uses (1 by `burns`), so the contract is refused.
Read more: `isonkaypu explain 62`, `isonkaypu explain use`
";
    assert_eq!(meaning, expected);
    let without = BURNED_TWICE.replace("send(to, lot);", "");
    let unused = of(show::why, &without, 1, Some(&without));
    assert!(
        unused.starts_with("NO USE  ward.quanta: the lot `lot` of entry `destroy`, node 15\n"),
        "{unused}"
    );
    assert!(
        unused.contains("\n\n[61] the lot `lot` is never used") && unused.contains(" this lot\n"),
        "{unused}"
    );
    assert!(unused.contains("This one is never used, so the contract is refused.\n"), "{unused}");
    let twice = of(show::why, BURNED_TWICE, 0, Some(BURNED_TWICE));
    assert!(twice.contains("This one has 2 uses (2 by `burns`), so"), "{twice}");
}

/// Where two entries have one name, the answer says which of them is meant.
#[test]
fn a_lot_of_one_of_two_entries() {
    let text = "contract C {\n    entry e(x: Q_Asset<M>) { }\n    entry e(x: Q_Asset<M>, to: Q_Address) { send(to, x); }\n}\n";
    let first = |lot, source| of(show::why, text, lot, source).lines().next().map(str::to_string);
    let said = |answer: &str| Some(answer.to_string());
    assert_eq!(first(0, Some(text)), said("NO USE  ward.quanta: the lot `x` of entry `e` (line 2), node 5"));
    assert_eq!(first(1, Some(text)), said("1 USE  ward.quanta: the lot `x` of entry `e` (line 3), node 13"));
    assert_eq!(first(1, None), said("1 USE  ward.image: the lot `x` of entry `e` (node 10), node 13"));
}

/// Of a text that is not the image's no line is shown, and the answer says so first.
#[test]
fn another_text() {
    let said = of(show::why, FINE, 0, Some("contract Other { }"));
    assert!(said.starts_with("OTHER TEXT  ward.image\n\n`ward.quanta` is not the text that"), "{said}");
    let alone = "The image alone says of the lot `lot` of entry `e`, node 7: 1 use. Nothing is said of";
    assert!(said.contains(alone) && said.contains("  in entry `e`, node 7, "), "{said}");
    assert!(!said.contains("Other {"), "{said}");
}

#[test]
fn colours_change_no_word() {
    for (text, lot, colour) in [(FINE, 0, "\u{1b}[1;32m1 USE"), (BURNED_AND_SENT, 0, "\u{1b}[1;31m2 USES")] {
        let coloured = of(show::why_in_colour, text, lot, Some(text));
        assert!(coloured.starts_with(colour), "{coloured}");
        let mut parts = coloured.split("\u{1b}[");
        let first = parts.next().unwrap_or_default().to_string();
        let plain = parts.fold(first, |all, part| all + part.split_once('m').expect("a colour ends").1);
        assert_eq!(plain, of(show::why, text, lot, Some(text)));
    }
}
