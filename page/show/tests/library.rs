//! Every form but the numbers says which proved library decided: programs get the whole sum, people its
//! first digits.

use crate::common;
use crate::common::{sample, shown, shown_source, shown_ward};
use show::Subject;

/// A form on a refused contract, on an accepted one, and on what is no image.
fn reports(form: fn(&Subject) -> String) -> [String; 3] {
    let unread = shown(form, "ward.image", &sample("ward.image")[..2000], None);
    [shown_ward(form), shown_source(form, &common::mended()), unread]
}

#[test]
fn the_library_is_named() {
    let (digits, whole) = (common::library_digits(), isonkaypu::library());
    for report in reports(show::text) {
        assert!(report.ends_with(&format!(", library {digits}\n")), "{report}");
    }
    for report in reports(show::html) {
        let (_, about) = report.split_once("About this report").expect("it has that part");
        let row = format!("<dt>Proved library</dt><dd><code class=\"digest\">{digits}</code></dd>");
        assert!(about.contains(&row), "{about}");
    }
    for report in [reports(show::json), reports(show::sarif)].concat() {
        assert!(report.contains(&format!("\"library\": \"{whole}\"")), "{report}");
    }
}

/// Document 01's report is what it is, byte for byte.
#[test]
fn the_numbers_name_nothing() {
    for report in reports(show::numbers) {
        assert!(!report.contains("library") && !report.contains(common::library_digits()), "{report}");
    }
}
