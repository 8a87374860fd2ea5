//! The report for programs, as JSON. Every key is always there, with null where there is nothing to
//! say; README.md has the schema.

pub mod value;

use crate::about::{self, TOOL, VERSION};
use crate::region::Region;
use crate::unread::Unread;
use crate::{Difference, Fault, Group, Mark, Source, Subject, Text, Use, by_entry, faults, sha256};
use isonkaypu::{Doubt, Entry, Pass, Report, Span};
use value::{Value, list, object};

/// What the form is called; it changes when a key goes or changes its meaning.
const SCHEMA: &str = "isonkaypu-report-4";

/// The report on a subject as a JSON text.
pub fn json(subject: &Subject) -> String {
    of(subject).to_file()
}

/// The reports on several subjects: a list of the same objects.
pub fn json_of(subjects: &[Subject]) -> String {
    list(subjects.iter().map(of)).to_file()
}

fn of(subject: &Subject) -> Value {
    let report = subject.report();
    let source = subject.source().map(Source::of);
    object([
        ("schema", SCHEMA.into()),
        ("tool", object([("name", TOOL.into()), ("version", VERSION.into())])),
        ("library", isonkaypu::library().into()),
        ("kit", isonkaypu::kit().into()),
        ("label", subject.label().into()),
        ("image", subject.image().map(bytes).into()),
        ("source", text(subject.text())),
        ("outcome", outcome(subject, source.as_ref())),
        ("verdicts", report.map(verdicts).into()),
        ("offences", report.map(|report| offences(report, source.as_ref())).into()),
        ("by_entry", report.map(|report| groups(report, source.as_ref())).into()),
        ("complete", report.map(|report| report.doubts().is_empty()).into()),
        ("doubts", report.map(|report| list(report.doubts().iter().map(Doubt::to_string))).into()),
        ("checked", list(about::checked(subject).iter().map(|(_, check)| check.word))),
        ("not_checked", list(about::not_checked(subject).iter().map(|gap| gap.word))),
    ])
}

/// The text that was given, and whether it is the image's; of one that was too long there are no sums.
fn text(text: &Text) -> Value {
    let (given, state, difference) = match text {
        Text::NotGiven => return Value::Null,
        Text::Shown(given) => (given, "same", None),
        Text::Other(given, difference) => (given, "other", Some(difference)),
        Text::TooLong(given) => (given, "too long", None),
        Text::NotHeld(given) => (given, "not compared", None),
    };
    let bytes = Some(given.bytes).filter(|_| state != "too long");
    object([
        ("name", given.name.into()),
        ("state", state.into()),
        ("sha256", bytes.map(sha256::hex).into()),
        ("length", bytes.map(<[u8]>::len).into()),
        ("difference", difference.map(differs).into()),
    ])
}

fn differs(difference: &Difference) -> Value {
    let found = difference.found.as_ref();
    object([
        ("node", difference.node.into()),
        ("span", span(difference.span)),
        ("line", found.map(|found| found.line).into()),
        ("column", found.map(|found| found.column).into()),
        ("expected", difference.expected.as_str().into()),
        ("found", found.map(|found| found.text.as_str()).into()),
    ])
}

fn bytes(bytes: &[u8]) -> Value {
    object([("sha256", sha256::hex(bytes).into()), ("length", bytes.len().into())])
}

fn outcome(subject: &Subject, source: Option<&Source>) -> Value {
    let result = match subject.report() {
        Some(_) if subject.other_text().is_some() => "other text",
        Some(_) if subject.accepted() => "accepted",
        Some(_) => "refused",
        None => "no image",
    };
    let refusal = Unread::of(subject).map(|unread| refusal_in_words(&unread, source));
    object([("result", result.into()), ("refusal", refusal.into())])
}

fn refusal_in_words(unread: &Unread, source: Option<&Source>) -> Value {
    let Unread { number, sentence, mend, span, words } = unread;
    object([
        ("number", number.map(Value::from).into()),
        ("title", words.map(|w| w.title.as_str()).into()),
        ("sentence", sentence.as_str().into()),
        ("means", words.map(|w| w.means.as_str()).into()),
        ("matters", words.map(|w| w.matters.as_str()).into()),
        ("mend", mend.as_str().into()),
        ("place", span.map(|span| limit_place(span, source)).into()),
    ])
}

/// Where a contract passes a limit. It has no node: there is no image.
fn limit_place(at: Span, source: Option<&Source>) -> Value {
    object([("span", span(at)), ("region", Region::of(source, at).map(|r| region(&r)).into())])
}

fn verdicts(report: &Report) -> Value {
    list(Pass::ALL.iter().map(|&pass| {
        let verdict = report.verdict(pass);
        object([
            ("pass", pass.word().into()),
            ("checks", about::word(pass).into()),
            ("accepted", (verdict.code == 0).into()),
            ("code", verdict.code.into()),
            ("node", verdict.place.node.into()),
            ("span", span(verdict.place.span)),
        ])
    }))
}

fn span(span: Span) -> Value {
    object([("from", span.start.into()), ("to", span.end.into())])
}

/// The faults; where there was no room for the list, the first of each pass, without their names.
fn offences(report: &Report, source: Option<&Source>) -> Value {
    let names =
        report.offences().iter().map(|offence| offence.name.as_deref()).chain(std::iter::repeat(None));
    list(faults(report).iter().zip(names).map(|(fault, name)| offence(fault, name, source)))
}

fn offence(fault: &Fault, name: Option<&str>, source: Option<&Source>) -> Value {
    object([
        ("code", fault.code.into()),
        ("pass", fault.pass.word().into()),
        ("title", fault.title.as_str().into()),
        ("sentence", fault.sentence.as_str().into()),
        ("name", name.into()),
        ("entry", fault.entry.as_ref().map(|one| entry(one, source)).into()),
        ("place", place(&fault.here, source)),
        ("related", list(fault.related().map(|mark| related(mark, source)))),
        (
            "reasons",
            fault.reasons.as_ref().map(|uses| list(uses.iter().map(|one| reason(one, source)))).into(),
        ),
        ("mend", fault.mend.as_str().into()),
    ])
}

/// Which offences stand in which entry, by their places in the list of them.
fn groups(report: &Report, source: Option<&Source>) -> Value {
    let group = |group: &Group| {
        object([
            ("entry", group.entry.map(|one| entry(one, source)).into()),
            ("count", group.faults.len().into()),
            ("offences", list(group.faults.iter().copied())),
        ])
    };
    list(by_entry(&faults(report)).iter().map(group))
}

/// The node tells entries of one name apart.
fn entry(entry: &Entry, source: Option<&Source>) -> Value {
    let place = entry.place;
    object([
        ("name", entry.name.as_str().into()),
        ("node", place.node.into()),
        ("span", span(place.span)),
        ("region", Region::of(source, place.span).map(|r| region(&r)).into()),
    ])
}

/// Another place; whether it is document 01's related place, or found beside it.
fn related(mark: &Mark, source: Option<&Source>) -> Value {
    place(mark, source).with("listed", Some(mark.listed.into()))
}

/// One use of a lot: by a clause, or in a statement, with what takes it there.
fn reason(one: &Use, source: Option<&Source>) -> Value {
    let kind = if one.consumer.is_none() { "clause" } else { "use" };
    object([
        ("kind", kind.into()),
        ("place", place(&one.place, source)),
        ("consumer", one.consumer.as_ref().map(|consumer| place(consumer, source)).into()),
    ])
}

fn place(mark: &Mark, source: Option<&Source>) -> Value {
    object([
        ("node", mark.node.into()),
        ("span", span(mark.span)),
        ("region", Region::of(source, mark.span).map(|r| region(&r)).into()),
        ("label", mark.label.as_str().into()),
    ])
}

fn region(region: &Region) -> Value {
    object([
        ("start_line", region.start.0.into()),
        ("start_column", region.start.1.into()),
        ("end_line", region.end.0.into()),
        ("end_column", region.end.1.into()),
    ])
}
