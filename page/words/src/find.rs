//! What `isonkaypu explain` finds for what it is asked.

use crate::help::{explain_check, explain_claims, explain_gap};
use crate::{Term, checks, code, explain, explain_list, explain_term, gaps, glossary, refusal};

/// What is asked for when somebody wants to know what was not checked.
const CLAIMS: [&str; 3] = ["not-checked", "not checked", "checked"];

/// The explanation of a number (`62`, `code 62`, `image 5`, `9`, `13`) or of a word (`lot`, `burns`, `linear`,
/// `not-checked`); all that there is, where nothing is asked for. `None` where there is nothing by this
/// name.
pub fn find(asked: &[&str]) -> Option<String> {
    let number = |text: &str| text.parse::<u16>().ok();
    let entry = match asked {
        [] => return Some(explain_list()),
        ["image", n] | ["list", "refused", n] => number(n).filter(|n| *n < 10).and_then(refusal),
        // these alone are no codes: a report prints 9 beside the codes, as `list refused 9`, and 10 and 13 are
        // what the question why a lot is refused is answered with
        [n @ ("9" | "10" | "13")] | ["why", "refused", n @ ("10" | "13")] => number(n).and_then(refusal),
        ["code", n] | [n] => number(n).and_then(code),
        _ => None,
    };
    entry.map(explain).or_else(|| of_word(&asked.join(" ").to_lowercase()))
}

fn of_word(word: &str) -> Option<String> {
    let is = |term: &&Term| term.word.to_lowercase() == word || term.also.iter().any(|also| also == word);
    let claims = || CLAIMS.contains(&word).then(explain_claims);
    let term = || glossary().iter().find(is).map(explain_term);
    let check = || checks().iter().find(is).map(explain_check);
    let gap = || gaps().iter().find(|gap| gap.word == word).map(explain_gap);
    claims().or_else(term).or_else(check).or_else(gap)
}
