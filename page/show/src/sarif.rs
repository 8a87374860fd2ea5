//! The report as SARIF 2.1.0, for the viewers and gates that read it. An image that could not be read, an
//! answer that is in doubt, or a text that is not the image's, is both a notification (the checks did not
//! run well) and a result, so that nobody who counts results takes it for a clean contract.

mod fingerprint;
mod place;
mod rules;
mod trouble;

use crate::about::{self, TOOL, VERSION};
use crate::json::value::{Value, list, object};
use crate::{Fault, Source, Subject, escape, faults, sha256};
use fingerprint::fingerprints;
use place::Places;
use rules::{message, plain};
use trouble::Trouble;

const SCHEMA: &str =
    "https://docs.oasis-open.org/sarif/sarif/v2.1.0/errata01/os/schemas/sarif-schema-2.1.0.json";

/// The report on a subject as a SARIF log.
pub fn sarif(subject: &Subject) -> String {
    sarif_of(std::slice::from_ref(subject))
}

/// The reports on several subjects as one log of one run: code scanning takes no two runs of one tool.
pub fn sarif_of(subjects: &[Subject]) -> String {
    object([("$schema", SCHEMA.into()), ("version", "2.1.0".into()), ("runs", list([run(subjects)]))])
        .to_file()
}

fn run(subjects: &[Subject]) -> Value {
    object([
        ("tool", object([("driver", driver())])),
        ("invocations", list([invocation(subjects)])),
        ("artifacts", list(subjects.iter().map(artifact))),
        ("columnKind", "unicodeCodePoints".into()),
        ("results", list(subjects.iter().enumerate().flat_map(|(i, subject)| results(i, subject)))),
        ("properties", properties(subjects)),
    ])
}

fn driver() -> Value {
    object([
        ("name", TOOL.into()),
        ("version", VERSION.into()),
        ("semanticVersion", VERSION.into()),
        ("rules", rules::all()),
        ("notifications", trouble::all()),
    ])
}

fn properties(subjects: &[Subject]) -> Value {
    object([
        ("library", isonkaypu::library().into()),
        ("kit", isonkaypu::kit().into()),
        ("complete", subjects.iter().all(is_complete).into()),
        ("images", list(subjects.iter().map(image))),
    ])
}

/// What was checked of an image.
fn image(subject: &Subject) -> Value {
    object([
        ("uri", escape::uri(subject.image_label()).into()),
        ("sha256", subject.image().map(sha256::hex).into()),
        ("complete", is_complete(subject).into()),
        ("checked", list(about::checked(subject).iter().map(|(_, check)| check.word))),
        ("notChecked", list(about::not_checked(subject).iter().map(|gap| gap.word))),
    ])
}

/// What the label names: the source where it is shown, else the image. Of a contract that has no image, and
/// whose text is not at hand, there are no bytes to speak of.
fn artifact(subject: &Subject) -> Value {
    let bytes = subject.source().or(subject.image());
    object([
        ("location", object([("uri", escape::uri(subject.label()).into())])),
        ("roles", list(["analysisTarget"])),
    ])
    .with("length", bytes.map(|bytes| bytes.len().into()))
    .with("hashes", bytes.map(|bytes| object([("sha-256", sha256::hex(bytes).into())])))
}

/// Did every check run, is every answer to be relied on, and is the text, if any, the image's?
fn is_complete(subject: &Subject) -> bool {
    subject.report().is_some_and(|report| report.doubts().is_empty()) && subject.other_text().is_none()
}

fn invocation(subjects: &[Subject]) -> Value {
    object([
        ("executionSuccessful", subjects.iter().all(is_complete).into()),
        ("toolExecutionNotifications", list(subjects.iter().flat_map(trouble::notifications))),
    ])
}

fn results(artifact: usize, subject: &Subject) -> Vec<Value> {
    let places = Places::of(subject, artifact);
    let faults = subject.report().map(faults).unwrap_or_default();
    let prints = fingerprints(subject, &faults);
    let troubles = trouble::troubles(subject);
    let faults = faults.iter().zip(prints).map(|(fault, print)| result(fault, print, &places));
    let whole = |trouble: &Trouble| trouble_result(trouble, &places);
    faults.chain(troubles.iter().map(whole)).collect()
}

fn result(fault: &Fault, fingerprint: Value, places: &Places) -> Value {
    let others = fault.related().enumerate().map(|(i, mark)| places.related(mark, i + 1));
    let related = (!fault.others.is_empty()).then(|| list(others));
    of_rule(&fault.code.to_string(), object([("text", said(fault).into())]))
        .with("locations", Some(list([places.location(&fault.here)])))
        .with("relatedLocations", related)
        .with("partialFingerprints", Some(fingerprint))
}

/// The sentence and how to mend it, with a link to each related place: `[its second use](1)`.
fn said(fault: &Fault) -> String {
    let link = |(i, label): (usize, &str)| format!("[{}]({})", plain(label), i + 1);
    let labels = fault.related().map(|mark| if mark.label.is_empty() { "there" } else { &mark.label });
    let links: Vec<String> = labels.enumerate().map(link).collect();
    let see = if links.is_empty() { String::new() } else { format!(" See {}.", links.join(", ")) };
    format!("{}. Mend: {}.{see}", plain(&about::capital(&fault.sentence)), plain(&fault.mend))
}

fn trouble_result(trouble: &Trouble, places: &Places) -> Value {
    of_rule(&trouble.id, message(&trouble.says))
        .with("locations", Some(list([places.whole(trouble.span)])))
        .with("partialFingerprints", Some(fingerprint::of(&[&trouble.id])))
}

fn of_rule(id: &str, message: Value) -> Value {
    let index = rules::index(id);
    object([("ruleId", id.into())])
        .with("ruleIndex", index.map(Value::from))
        .with("kind", Some("fail".into()))
        .with("level", Some("error".into()))
        .with("message", Some(message))
}

/// The source of a subject, where it is shown.
fn source<'a>(subject: &Subject<'a>) -> Option<Source<'a>> {
    subject.source().map(Source::of)
}
