//! A text that is not the one that the image was made from: no form shows it, every form says so, and
//! none of them accepts.

use crate::common::json::Json;
use crate::common::pages::{other_text, other_text_accepted, too_long};
use crate::common::{images, mended, respanned, sample, shown, shown_with, ward};
use form::{Tree, kind};
use show::{Difference, Subject, Text};

/// The difference between an image and a text, where there is one.
fn difference(image: &[u8], text: &[u8]) -> Option<Difference> {
    let report = isonkaypu::check_image(image).expect("an image");
    let subject = Subject::checked("x.image", &report).with_source("x.quanta", text);
    let found = subject.other_text().map(|(_, difference)| difference.clone());
    assert_eq!(
        (subject.source().is_none(), subject.label() == "x.image"),
        (found.is_some(), found.is_some())
    );
    found
}

/// Where it differs, in words.
fn said(image: &[u8], text: &str) -> String {
    difference(image, text.as_bytes()).map_or(String::new(), |difference| difference.in_words())
}

#[test]
fn texts_that_are_not_the_images() {
    let (image, ward) = (sample("ward.image"), ward());
    assert_eq!(said(&image, &ward), "");
    for (text, where_and_what) in [
        (format!("// a remark\n{ward}"), "line 2, column 74 should have `WardStock`, and has `d.`"),
        (
            ward.replace("WardStock", "WardStack"),
            "line 2, column 10 should have `WardStock`, and has `WardStack`",
        ),
        (
            ward.replace("WardStock", "wardStock"),
            "line 2, column 10 should have `WardStock`, and has `wardStock`",
        ),
        (
            ward.replace("amount);\n    }", "amoun );\n    }"),
            "line 38, column 27 should have `amount`, and has `amoun `",
        ),
        (
            ward.replace("limit = 500", "limit2= 500"),
            "line 16, column 9 should have `limit`, and has `limit2`",
        ),
        (
            ward.replace("    asset M", "\tasset M"),
            "line 3, column 11 should have `Morphine`, and has `phine;`",
        ),
        ("contract".to_string(), "`WardStock` should stand at bytes 85 to 94, which is no place in the text"),
        (String::new(), "`WardStock` should stand at bytes 85 to 94, which is no place in the text"),
        (" ".repeat(90), "`WardStock` should stand at bytes 85 to 94, which is no place in the text"),
        (
            "\u{1b}[2J".repeat(30),
            "line 1, column 86 should have `WardStock`, and has `[2J\\u{1b}[2J\\u{1b}[`",
        ),
    ] {
        let said = said(&image, &text);
        assert!(said.contains(where_and_what.trim_end()), "{said}");
    }
}

/// Each name of each example is held: a text that has another byte in one of them is another text, and
/// nothing else that an image carries is missed.
#[test]
fn every_name_is_held() {
    for entry in words::codes() {
        let image = example::image(&entry.before);
        let tree = Tree::of(&image).expect("a tree");
        assert_eq!(difference(&image, entry.before.as_bytes()), None, "{}", entry.number);
        for (i, node) in tree.nodes.iter().enumerate().filter(|(_, node)| kind::carries_a_name(node.kind)) {
            for at in [node.from, node.to - 1] {
                let mut text = entry.before.clone().into_bytes();
                text[at as usize] = if text[at as usize] == b'q' { b'p' } else { b'q' };
                let found = difference(&image, &text).expect("another text");
                assert_eq!((found.node, found.expected.as_bytes()), (i, node.text));
            }
        }
    }
}

/// What an image does not carry cannot be told apart: remarks behind, numbers, signs.
#[test]
fn what_an_image_does_not_carry() {
    let image = sample("ward.image");
    for same in [
        ward() + "// a remark",
        ward().replace("limit = 500", "limit = 900"),
        ward().replace("issued <= limit", "issued >= limit"),
    ] {
        assert_eq!(difference(&image, same.as_bytes()), None);
    }
}

/// Spans that lie outside, that are turned round or that are of another length fit no text.
#[test]
fn spans_that_fit_no_text() {
    let text = ward();
    let length = text.len() as u32;
    for span in
        [(5, 4), (0, 0), (length, length), (0, length + 1), (u32::MAX, u32::MAX), (u32::MAX, 0), (0, length)]
    {
        let image = respanned(&sample("ward.image"), |_| span);
        assert!(difference(&image, text.as_bytes()).is_some(), "{span:?}");
    }
    for text in ["", "contract c { entry e(x: Q_Asset) { } }", "x"] {
        assert!(difference(&sample("p2.image"), text.as_bytes()).is_some());
    }
}

/// The first difference is the one that comes first in the text.
#[test]
fn the_first_difference() {
    let text = ward().replace("issued", "ISSUED").replace("limit", "LIMIT");
    let found = difference(&sample("ward.image"), text.as_bytes()).expect("another text");
    assert_eq!(found.in_words(), "line 8, column 9 should have `issued`, and has `ISSUED`");
}

/// No line of the text, no place in it, and no plain acceptance in any form.
#[test]
fn nothing_of_it_is_shown() {
    for form in [show::text, show::text_in_colour, show::json, show::sarif, show::html] {
        for shown in [other_text(form), other_text_accepted(form)] {
            assert!(shown.contains("other.quanta") && shown.contains("WardStock"), "{shown}");
            for of_the_text in [
                "checked by A. B.",
                "Morphine on the wards",
                "stock.get(ward).split(amount)",
                "other.quanta:",
            ] {
                assert!(!shown.contains(of_the_text), "{of_the_text}: {shown}");
            }
            assert!(!shown.contains("ACCEPTED") && !shown.contains("\"accepted\": \""), "{shown}");
        }
    }
}

#[test]
fn the_text_says_it_first() {
    let expected = "\
OTHER TEXT  ward.image

`other.quanta` is not the text that `ward.image` was made from: line 2, column 66 should have
`WardStock`, and has `destroyed`.
  mend: give the text that the image was made from, or make a new image from this text and check
        that one

The image alone is accepted: no faults. Nothing is said of `other.quanta`, and no line of it is
shown.

";
    let shown = other_text_accepted(show::text);
    assert_eq!(shown, format!("{expected}{}{}\n", words::last_lines(None), show::made_by()));
    assert!(other_text(show::text).contains("The image alone is refused: 3 faults. "));
}

#[test]
fn json_has_its_own_result() {
    for (json, offences) in [(other_text(show::json), 3), (other_text_accepted(show::json), 0)] {
        let json = Json::read(&json);
        assert_eq!([json.at("outcome/result").text(), json.at("label").text()], ["other text", "ward.image"]);
        assert_eq!(
            [json.at("source/state").text(), json.at("source/name").text()],
            ["other", "other.quanta"]
        );
        let difference = json.at("source/difference");
        assert_eq!((difference.at("line").number(), difference.at("column").number()), (2, 66));
        assert_eq!(
            [difference.at("expected").text(), difference.at("found").text()],
            ["WardStock", "destroyed"]
        );
        assert_eq!(json.at("offences").list().len(), offences);
        assert!(json.at("offences").list().iter().all(|o| o.at("place/region") == &Json::Null));
    }
}

/// A log that would close alerts has a successful run without results: this one has neither.
#[test]
fn sarif_closes_no_alert() {
    for (log, results) in [(other_text(show::sarif), 4), (other_text_accepted(show::sarif), 1)] {
        let log = Json::read(&log);
        let run = log.at("runs/0");
        assert_eq!(run.at("invocations/0/executionSuccessful"), &Json::Bool(false));
        let notification = run.at("invocations/0/toolExecutionNotifications/0");
        assert_eq!(
            [notification.at("level").text(), notification.at("descriptor/id").text()],
            ["error", "other-text"]
        );
        assert_eq!(run.at("results").list().len(), results);
        assert_eq!(run.at(&format!("results/{}/ruleId", results - 1)).text(), "other-text");
        assert_eq!(run.at("artifacts/0/location/uri").text(), "ward.image");
        assert!(
            run.at("results")
                .list()
                .iter()
                .all(|r| r.at("locations/0/physicalLocation/region") == &Json::Null)
        );
    }
}

#[test]
fn the_page_has_a_banner_of_its_own() {
    for html in [other_text(show::html), other_text_accepted(show::html)] {
        assert!(html.contains("<header class=\"banner other\">") && !html.contains("banner accepted"));
        assert!(html.contains("<title>Text and image do not match: ward.image</title>"));
        assert!(html.contains("Checked, of the image alone") && !html.contains("<div class=\"code\""));
    }
}

/// A text that is too long is not shown, and is no reason to refuse.
#[test]
fn too_long_to_show() {
    let text = too_long(show::text);
    assert!(
        text.starts_with("ACCEPTED  ward.image: no faults\nThe text `long.quanta` is too long to show"),
        "{text}"
    );
    let json = Json::read(&too_long(show::json));
    assert_eq!([json.at("outcome/result").text(), json.at("source/state").text()], ["accepted", "too long"]);
    assert_eq!(json.at("source/sha256"), &Json::Null);
    let log = Json::read(&too_long(show::sarif));
    let notification = log.at("runs/0/invocations/0/toolExecutionNotifications/0");
    assert_eq!(notification.at("descriptor/id").text(), "text-not-shown");
    assert_eq!(log.at("runs/0/invocations/0/executionSuccessful"), &Json::Bool(true));
    assert!(too_long(show::html).contains("is too long to show"));
    // the longest text that is shown
    let longest = mended() + &" ".repeat(show::LONGEST_SOURCE - mended().len());
    let image = example::image(&mended());
    let shown = shown_with(show::json, ("w.image", &image), Some(("w.quanta", longest.as_bytes())));
    assert_eq!(Json::read(&shown).at("source/state").text(), "same");
}

/// With bytes that are no image there is nothing to hold a text against: it is not shown either.
#[test]
fn no_image_and_a_text() {
    let report = isonkaypu::check_image(b"no image").expect_err("no image");
    let subject = Subject::no_image("x.image", b"no image", report).with_source("x.quanta", b"contract");
    assert!(matches!(subject.text(), Text::NotHeld(_)) && subject.source().is_none());
    assert_eq!((subject.label(), subject.accepted()), ("x.image", false));
    assert!(!show::html(&subject).contains("<div class=\"code\""));
    assert_eq!(Json::read(&show::json(&subject)).at("source/state").text(), "not compared");
}

/// A text where an image belongs is told so, in words for people.
#[test]
fn a_text_where_an_image_belongs() {
    for text in [ward(), "contract C { }".to_string(), "// ä\n".to_string()] {
        for form in [show::text, show::json, show::sarif, show::html] {
            let shown = shown(form, "ward.quanta", text.as_bytes(), None);
            let shown = shown.split_whitespace().collect::<Vec<_>>().join(" ").to_lowercase();
            assert!(shown.contains("this looks like the text of a contract, not like its image"), "{shown}");
        }
    }
    let page = shown(show::html, "ward.quanta", ward().as_bytes(), None);
    assert!(!page.contains("Tell the page"), "nobody else is to be asked");
    for image in images() {
        for no_text in [&image[..image.len() - 1], &image[..20], b"", b"\0\0"] {
            let shown = shown(show::text, "x", no_text, None);
            assert!(shown.starts_with("NOT READ") && !shown.contains("looks like the text"), "{shown}");
        }
    }
}
