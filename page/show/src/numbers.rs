//! Document 01's report, byte for byte: what the report program prints.

use crate::fault::list_refused;
use crate::subject::{Outcome, Subject};
use isonkaypu::{Offence, Pass, Place, Report};

/// "It prints `image N` alone on refusal N. Otherwise: per pass a line (name, code, place, two span
/// words), `list` and the count (or `list refused 9`), per record a line". Document 02 puts the entry into that line,
/// "after related".
///
/// Of a contract that has no image, `image N` is what its image would be refused with. Document 01 has no
/// number, and no line, for an image that does not say what the contract says; then it is `not packed`, which
/// nobody can take for a line of document 01.
pub fn numbers(subject: &Subject) -> String {
    match subject.outcome() {
        Outcome::NoImage { refusal, .. } => format!("image {}\n", refusal.number()),
        Outcome::NotPacked(error) if error.number() == 0 => "not packed\n".to_string(),
        Outcome::NotPacked(error) => format!("image {}\n", error.number()),
        Outcome::Checked(report) => pass_lines(report) + &list(report),
    }
}

fn pass_lines(report: &Report) -> String {
    Pass::ALL.iter().map(|pass| pass_line(report, *pass)).collect()
}

fn pass_line(report: &Report, pass: Pass) -> String {
    let verdict = report.verdict(pass);
    let Place { node, span, .. } = verdict.place;
    format!("{} {} {node} {} {}\n", pass.word(), verdict.code, span.start, span.end)
}

fn list(report: &Report) -> String {
    if list_refused(report) {
        return "list refused 9\n".to_string();
    }
    let records: String = report.offences().iter().map(record).collect();
    format!("list {}\n{records}", report.offences().len())
}

fn record(offence: &Offence) -> String {
    let Place { node, span, .. } = offence.place;
    let related = offence.related.map_or(0, |place| place.node);
    let entry = offence.entry.as_ref().map_or(0, |entry| entry.place.node);
    format!("{} {node} {related} {entry} {} {}\n", offence.code, span.start, span.end)
}
