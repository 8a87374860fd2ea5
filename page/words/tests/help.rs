//! The committed help page is the one that the file of words makes.

use words::{codes, explain, explain_list, glossary, help_page, refusals};

#[test]
fn the_committed_page_is_this_one() {
    let path = concat!(env!("CARGO_MANIFEST_DIR"), "/../../docs/HELP.md");
    let committed = std::fs::read_to_string(path).expect("docs/HELP.md is there");
    assert!(committed == help_page(), "docs/HELP.md differs: run `isonkaypu help-page > docs/HELP.md`");
}

#[test]
fn the_page_has_every_number_and_word() {
    let page = help_page();
    for entry in refusals().iter().chain(codes()) {
        assert!(page.contains(&entry.title) && page.contains(&entry.how), "{}", entry.number);
    }
    assert!(glossary().iter().all(|term| page.contains(&format!("- **{}**: ", term.word))));
    for gap in words::gaps() {
        assert!(
            page.contains(&format!("### {}\n", gap.word)) && page.contains(&gap.means[1..]),
            "{}",
            gap.word
        );
    }
    assert!(words::checks().iter().all(|check| page.contains(&check.means)));
    assert!(
        page.contains("`image 8`") && page.contains("`list refused 9`") && !page.contains("### `image 9`")
    );
}

/// The last lines of a report name each check and each gap, and stay short.
#[test]
fn the_last_lines_name_every_gap() {
    let lines = words::last_lines(Some(62)).replace("\n  ", " ");
    assert!(words::gaps().iter().all(|gap| lines.contains(&gap.word)), "{lines}");
    assert!(words::CHECKS.iter().all(|check| lines.contains(check)), "{lines}");
    assert!(lines.contains("`isonkaypu explain 62`") && lines.contains("`isonkaypu explain not-checked`"));
    assert!(words::last_lines(None).lines().all(|line| line.len() <= 90) && lines.lines().count() == 3);
}

#[test]
fn explain_says_all_of_an_entry() {
    let joined = |text: &str| text.split_whitespace().collect::<Vec<_>>().join(" ");
    for entry in refusals().iter().chain(codes()) {
        let said = joined(&explain(entry));
        for part in [&entry.title, &entry.means, &entry.matters, &entry.how, &entry.before, &entry.after] {
            assert!(said.contains(&joined(part)), "{}: {part}", entry.number);
        }
        assert!(explain_list().contains(&entry.title));
    }
    let widest = codes().iter().flat_map(|e| explain(e).lines().map(str::len).collect::<Vec<_>>()).max();
    assert!(widest <= Some(90), "{widest:?}");
}

/// Whatever a report or the list of `explain` names is found: codes, refusal 9, clauses, checks, gaps.
#[test]
fn explain_finds_what_is_asked_for() {
    let begins = |asked: &str, with: &str| {
        let found = words::find(&asked.split(' ').collect::<Vec<_>>());
        assert!(found.as_ref().is_some_and(|text| text.starts_with(with)), "{asked}: {found:?}");
    };
    for clause in ["writes", "reads", "conserves", "mints", "burns", "limits", "denies", "after"] {
        begins(clause, &format!("{clause}\n  A clause "));
    }
    begins("9", "list refused 9: ");
    begins("list refused 9", "list refused 9: ");
    for number in ["10", "13"] {
        begins(number, &format!("why refused {number}: "));
        begins(&format!("why refused {number}"), &format!("why refused {number}: "));
    }
    for (pass, check) in [("resolve", "names"), ("access", "access"), ("linear", "lots")] {
        begins(pass, &format!("The check of {check}\n"));
        begins(check, &format!("The check of {check}\n"));
    }
    begins("not-checked", "Checked\n");
    begins("not checked", "Checked\n");
    begins("Q_Asset", "lot\n");
    for gap in words::gaps() {
        begins(&gap.word, &format!("NOT checked: {}\n", gap.word));
        assert!(words::explain_claims().contains(&gap.word));
    }
    let listed = explain_list().split("Words\n").nth(1).expect("words").replace('\n', " ");
    for word in listed.split(',').map(str::trim) {
        assert!(words::find(&word.split_whitespace().collect::<Vec<_>>()).is_some(), "{word}");
    }
    for unknown in ["63", "5", "image 10", "image 13", "list refused 13", "11", "12", "box", "0"] {
        assert_eq!(words::find(&unknown.split(' ').collect::<Vec<_>>()), None, "{unknown}");
    }
}
