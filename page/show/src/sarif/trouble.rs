//! What a SARIF log says of the run itself: what kept the checks from running well, and what they do
//! not look at.

use super::rules::{DOUBT, DOUBT_ID, OTHER_TEXT, OTHER_TEXT_ID, described, message, refusal_id, refusals};
use crate::json::value::{Value, list, object};
use crate::unread::Unread;
use crate::{Outcome, Subject, about, looks, notice};
use isonkaypu::{Doubt, Span};

/// The notification that says what was not checked.
const NOT_CHECKED_ID: &str = "not-checked";

/// The notification that says that a text was not shown, and why.
const NOT_SHOWN_ID: &str = "text-not-shown";

/// What a notification can be about: a refusal, a doubt, a text, or what was not checked.
fn descriptors() -> Vec<(String, &'static str)> {
    let refused = refusals().map(|entry| (refusal_id(entry.number), entry.title.as_str()));
    let others = [
        (DOUBT_ID, DOUBT),
        (OTHER_TEXT_ID, OTHER_TEXT),
        (NOT_SHOWN_ID, "the text was not shown, nor compared with the image"),
        (NOT_CHECKED_ID, "what was not checked"),
    ];
    refused.chain(others.map(|(id, text)| (id.to_string(), text))).collect()
}

pub fn all() -> Value {
    list(descriptors().iter().map(|(id, text)| described(id, text)))
}

/// Something that kept the checks from running well.
pub struct Trouble {
    pub id: String,
    pub says: String,
    /// Where in the source, where it has a place.
    pub span: Option<Span>,
}

/// Every notification on a subject.
pub fn notifications(subject: &Subject) -> Vec<Value> {
    let troubles = troubles(subject).into_iter().map(|one| notification(&one.id, "error", &one.says));
    let not_shown = notice::not_shown(subject).map(|says| notification(NOT_SHOWN_ID, "warning", &says));
    troubles.chain(not_shown).chain([not_checked(subject)]).collect()
}

/// Why the image could not be read, why the answers are in doubt, that the text is another one.
pub fn troubles(subject: &Subject) -> Vec<Trouble> {
    let other = notice::other_text(subject).map(|other| Trouble {
        id: OTHER_TEXT_ID.to_string(),
        says: other.says,
        span: None,
    });
    let of_the_image: Vec<Trouble> = match subject.outcome() {
        Outcome::Checked(report) => report.doubts().iter().map(doubted).collect(),
        _ => Unread::of(subject).iter().map(|unread| refused(subject, unread)).collect(),
    };
    of_the_image.into_iter().chain(other).collect()
}

fn doubted(doubt: &Doubt) -> Trouble {
    Trouble { id: DOUBT_ID.to_string(), says: format!("{}: {doubt}.", about::capital(DOUBT)), span: None }
}

/// What document 01 has no number for, an image that does not say what the contract says, is a doubt.
fn refused(subject: &Subject, unread: &Unread) -> Trouble {
    let Unread { number, sentence, span, .. } = unread;
    let numbered = number.map_or(String::new(), |number| format!(" (image {number})"));
    let hint = match looks::text_for_image(subject) {
        true => format!(" {}.", about::capital(looks::TEXT_FOR_IMAGE)),
        false => String::new(),
    };
    let says =
        format!("The contract could not be read, and nothing was checked: {sentence}{numbered}.{hint}");
    Trouble { id: number.map_or(DOUBT_ID.to_string(), refusal_id), says, span: *span }
}

/// The notification that keeps a reader from taking more for checked than was.
fn not_checked(subject: &Subject) -> Value {
    let gaps = about::not_checked(subject).iter().map(|gap| gap.word).collect::<Vec<_>>().join(", ");
    notification(NOT_CHECKED_ID, "note", &format!("Not checked of {}: {gaps}.", subject.label()))
}

fn notification(id: &str, level: &'static str, text: &str) -> Value {
    let index = descriptors().iter().position(|(one, _)| one == id);
    let descriptor = object([("id", id.into())]).with("index", index.map(Value::from));
    object([("descriptor", descriptor), ("level", level.into()), ("message", message(text))])
}
