//! `compare patterns`: what document 01 says by hand of P1 to P14, of its tempting mistakes, of the
//! settled readings and of the limits, against the reference and, for verdicts, the Rust.

use crate::judge;
use crate::mismatch::{Mismatch, same};
use generate::patterns::{Pattern, p2, patterns, reported};
use generate::{Limit, limits};
use quanta_typeck::model::Model;
use reference::{Judged, Pass, Record};

/// Document 01's own example of a report, P2's, with request E8's "P2's record line becomes
/// `61 5 0 2 50 51`".
const P2_REPORT: &str = "resolve 0 0 0 0\naccess 0 0 0 0\nlinear 61 5 50 51\nlist 1\n61 5 0 2 50 51\n";

/// Runs all; the text is what to print, and an `Err` is a failure.
pub fn run() -> Result<String, String> {
    let mut failures = Vec::new();
    let mut note = |name: &str, outcome: Result<(), Mismatch>| {
        if let Err(m) = outcome {
            let Mismatch { what, reference, other } = m;
            failures.push(format!("{name}: {what}: expected {reference}, got {other}"));
        }
    };
    let (patterns, limits) = (patterns(), limits());
    for pattern in &patterns {
        note(pattern.name, pattern_holds(pattern));
    }
    for limit in &limits {
        note(&limit.name, limit_holds(limit));
    }
    note("P2's bytes", same("length", 172, p2().image().len()));
    note("P2's report", same("text", P2_REPORT, &reference::report(&p2().image())));
    for (pattern, report) in reported() {
        note(pattern.name, same("the report", report, &reference::report(&pattern.tree.image())));
    }
    if failures.is_empty() {
        Ok(format!("{} patterns and {} limits hold\n", patterns.len(), limits.len()))
    } else {
        Err(failures.join("\n") + "\n")
    }
}

/// The reference gives the whole list, and each pass of the Rust gives the first of its part.
fn pattern_holds(pattern: &Pattern) -> Result<(), Mismatch> {
    let image = pattern.tree.image();
    let expected = pattern.list();
    let judged = match reference::judge(&image) {
        Ok(judged) => judged,
        Err(refusal) => return same("the refusal", 0, refusal),
    };
    let listed: Vec<[u16; 4]> = judged.list().iter().map(Record::words).collect();
    same("the reference's list", &expected, &listed)?;
    room_holds(&judged, &expected)?;
    let contract = judge::contract(&image)?;
    let model = Model::build(&contract);
    for pass in Pass::ALL {
        let first = expected.iter().find(|[code, ..]| pass_of(*code) == pass);
        let verdict = first.map_or((0, 0), |[code, place, ..]| (*code, *place));
        same(&format!("the Rust's {}", pass.word()), verdict, judge::verdict(pass, &model))?;
    }
    Ok(())
}

/// Four words for each record are enough, and one word less is not.
fn room_holds(judged: &Judged, expected: &[[u16; 4]]) -> Result<(), Mismatch> {
    let mut words = vec![0; 4 * expected.len()];
    same("the count in exact room", Ok(expected.len()), judged.list_into(&mut words))?;
    same("the words in exact room", expected.concat(), words.clone())?;
    match words.split_last_mut() {
        Some((_, short)) => same("the count in one word less", Err(9), judged.list_into(short)),
        None => Ok(()),
    }
}

/// The pass that a code is of: 20 to 40, 50 and 51, 60 to 62.
fn pass_of(code: u16) -> Pass {
    match code {
        0..50 => Pass::Resolve,
        50..60 => Pass::Access,
        _ => Pass::Linear,
    }
}

fn limit_holds(limit: &Limit) -> Result<(), Mismatch> {
    same("the refusal", limit.refusal, reference::refusal(&limit.image))
}
