//! What every form but the numbers says was checked and was not: all say the same, from one list, and no
//! more than the rules look at.

use crate::common::json::Json;
use crate::common::{shown, shown_source};

/// Text as it is read: on one line, without the signs of HTML.
fn joined(text: &str) -> String {
    let signs =
        [("<code>", "`"), ("</code>", "`"), ("&lt;", "<"), ("&gt;", ">"), ("&#39;", "'"), ("&quot;", "\"")];
    let plain = signs.iter().fold(text.to_string(), |text, (sign, plain)| text.replace(sign, plain));
    plain.split_whitespace().collect::<Vec<_>>().join(" ")
}

/// The words of a list in JSON.
fn words_of<'a>(json: &'a Json, path: &str) -> Vec<&'a str> {
    json.at(path).list().iter().map(Json::text).collect()
}

#[test]
fn every_form_but_the_numbers_names_every_check_and_every_gap() {
    let gaps: Vec<&str> = words::gaps().iter().map(|gap| gap.word.as_str()).collect();
    for gap in words::gaps() {
        let [text, html] = [show::text, show::html].map(|form| joined(&shown_source(form, &gap.example)));
        assert!(text.starts_with("ACCEPTED"), "{text}");
        for one in words::gaps() {
            assert!(text.contains(&one.word), "the text is silent on {}", one.word);
            // the page begins them with a capital letter
            assert!(html.contains(&one.word[1..]) && html.contains(&one.means[1..]), "{}", one.word);
        }
        assert!(words::checks().iter().all(|check| html.contains(&check.means[1..])));
    }
    let accepted = "contract C { }";
    let json = Json::read(&shown_source(show::json, accepted));
    assert_eq!(
        (words_of(&json, "checked"), words_of(&json, "not_checked")),
        (words::CHECKS.to_vec(), gaps.clone())
    );
    let sarif = Json::read(&shown_source(show::sarif, accepted));
    assert_eq!(words_of(&sarif, "runs/0/properties/images/0/checked"), words::CHECKS);
    assert_eq!(words_of(&sarif, "runs/0/properties/images/0/notChecked"), gaps);
    let notes = sarif.at("runs/0/invocations/0/toolExecutionNotifications/0/message/text").text();
    assert!(gaps.iter().all(|gap| notes.contains(gap)), "{notes}");
}

/// Sentences that said more than the rules look at do not come back.
#[test]
fn no_form_says_more_than_the_rules_look_at() {
    for gap in words::gaps() {
        for form in [show::text, show::html, show::json, show::sarif] {
            let shown = shown_source(form, &gap.example);
            for claim in
                ["in order", "every name must be declared", "none may be lost", "is safe", "is correct"]
            {
                assert!(!shown.contains(claim), "`{claim}` over {}", gap.example);
            }
        }
    }
}

/// Each card of the page says how to mend the fault in this contract, and then at length.
#[test]
fn cards_say_how_at_length() {
    for entry in words::codes() {
        let html = joined(&shown_source(show::html, &entry.before));
        for paragraph in entry.how.split("\n\n") {
            assert!(html.contains(&joined(paragraph)[1..]), "{}: {paragraph}", entry.number);
        }
    }
}

/// The gaps are named in the page's README and the product's, word for word.
#[test]
fn the_readme_names_every_gap() {
    let path = concat!(env!("CARGO_MANIFEST_DIR"), "/../../README.md");
    let readme = joined(&std::fs::read_to_string(path).expect("the README is there"));
    for gap in words::gaps() {
        assert!(readme.contains(&gap.word), "README.md is silent on {}", gap.word);
    }
    let unread = shown(show::text, "x", b"no image", None);
    assert!(unread.ends_with(&format!("Nothing was checked.\n{}\n", show::made_by())));
}
