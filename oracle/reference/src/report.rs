//! Document 01, the report program: what it prints for the bytes of its standard input.

use crate::{Judged, LIST_WORDS, Pass, RECORD_WORDS, Verdict, judge};
use std::fmt::Write;

/// The whole report, a newline after each line.
pub fn report(image: &[u8]) -> String {
    let mut out = String::new();
    match judge(image) {
        // It prints `image N` alone on refusal N.
        Err(refusal) => line(&mut out, &format!("image {refusal}")),
        Ok(judged) => {
            for pass in Pass::ALL {
                pass_line(&mut out, pass, judged.verdict(pass));
            }
            list_lines(&mut out, &judged);
        }
    }
    out
}

fn line(out: &mut String, text: &str) {
    writeln!(out, "{text}").expect("a String takes any text");
}

/// "per pass a line (name, code, place, two span words)"
fn pass_line(out: &mut String, pass: Pass, verdict: Verdict) {
    let Verdict { code, place, from, to } = verdict;
    line(out, &format!("{} {code} {place} {from} {to}", pass.word()));
}

/// "`list` and the count (or `list refused 9`), per record a line: code, place, related, two span
/// words", and by request E8 "the report program prints the word after related": the entry
fn list_lines(out: &mut String, judged: &Judged) {
    let mut words = vec![0; LIST_WORDS];
    let Ok(count) = judged.list_into(&mut words) else {
        return line(out, "list refused 9");
    };
    line(out, &format!("list {count}"));
    for words in words.chunks(RECORD_WORDS).take(count) {
        let (code, place, related, entry) = (words[0], words[1], words[2], words[3]);
        let (from, to) = judged.spans(place);
        line(out, &format!("{code} {place} {related} {entry} {from} {to}"));
    }
}
