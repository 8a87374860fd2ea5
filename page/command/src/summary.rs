//! The end of a text on several images: a line for each, and how many of each sort there are.

use crate::{ACCEPTED, NO_IMAGE, OFFENCES};
use show::{Subject, safe};

/// The sorts in the order in which they are counted.
const SORTS: [&str; 4] = ["ACCEPTED", "REFUSED", "NOT READ", "OTHER TEXT"];

fn sort(status: u8) -> &'static str {
    match status {
        ACCEPTED => SORTS[0],
        OFFENCES => SORTS[1],
        NO_IMAGE => SORTS[2],
        _ => SORTS[3],
    }
}

/// The summary of subjects with their statuses.
pub fn summary(subjects: &[Subject], statuses: &[u8]) -> String {
    let rows = subjects.iter().zip(statuses);
    let row =
        |(subject, status): (&Subject, &u8)| format!("{:<10}  {}\n", sort(*status), safe(subject.label()));
    let count = |word: &str| statuses.iter().filter(|status| sort(**status) == word).count();
    let counts = SORTS.map(|word| (count(word), word.to_lowercase()));
    let counts: Vec<String> =
        counts.iter().filter(|(n, _)| *n > 0).map(|(n, word)| format!("{n} {word}")).collect();
    let rows: String = rows.map(row).collect();
    format!("{rows}{} images: {}\n", subjects.len(), counts.join(", "))
}
