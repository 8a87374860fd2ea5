//! The rules of a SARIF log: one for each code and each refusal, with the words of the one file.

use crate::json::value::{Value, list, object};
use words::Entry;

/// The rule of answers that do not hold together.
pub const DOUBT_ID: &str = "doubt";
pub const DOUBT: &str = "the checker's answers do not hold together";

/// The rule of a text that is not the image's.
pub const OTHER_TEXT_ID: &str = "other-text";
pub const OTHER_TEXT: &str = "the text is not the one that the image was made from";

/// The rules that have no entry in the file of words.
const OURS: [(&str, &str); 2] = [(DOUBT_ID, DOUBT), (OTHER_TEXT_ID, OTHER_TEXT)];

/// The id of a code's rule is its number.
fn code_id(entry: &Entry) -> String {
    entry.number.to_string()
}

/// The id of a refusal's rule: refusals have small numbers of their own.
pub fn refusal_id(number: u16) -> String {
    format!("image-{number}")
}

/// Refusal 9 is about a list's buffer: no image is refused with it.
pub fn refusals() -> impl Iterator<Item = &'static Entry> {
    words::refusals().iter().filter(|entry| entry.number < 9)
}

fn ids() -> impl Iterator<Item = String> {
    let refusals = refusals().map(|entry| refusal_id(entry.number));
    words::codes().iter().map(code_id).chain(refusals).chain(OURS.map(|(id, _)| id.to_string()))
}

/// Where the rule stands among the rules.
pub fn index(id: &str) -> Option<usize> {
    ids().position(|one| one == id)
}

/// Every rule: the codes, the refusals, and ours.
pub fn all() -> Value {
    let in_words = ids().zip(words::codes().iter().chain(refusals())).map(|(id, entry)| rule(id, entry));
    list(in_words.chain(OURS.map(|(id, text)| described(id, text).with("helpUri", Some(help_uri(id))))))
}

/// A descriptor of which there is no more to say.
pub fn described(id: &str, text: &str) -> Value {
    object([("id", id.into()), ("shortDescription", message(text))])
}

fn rule(id: String, entry: &Entry) -> Value {
    object([
        ("id", id.as_str().into()),
        ("shortDescription", message(&entry.title)),
        ("fullDescription", message(&entry.means)),
        ("defaultConfiguration", object([("level", "error".into())])),
        ("helpUri", help_uri(&id)),
        ("help", object([("text", help(entry).into()), ("markdown", markdown(entry).into())])),
    ])
}

/// The standard asks for an absolute URI, and there is no site: a name that leads nowhere, but that a site
/// can be found by. The help itself stands beside it.
fn help_uri(id: &str) -> Value {
    format!("urn:isonkaypu:help:{id}").into()
}

fn help(entry: &Entry) -> String {
    format!(
        "What it means: {}\n\nWhy it matters: {}\n\nHow to mend it: {}{}",
        entry.means,
        entry.matters,
        entry.how,
        example(entry, |title, text| format!("\n\n{title}:\n\n{text}"))
    )
}

fn markdown(entry: &Entry) -> String {
    format!(
        "**What it means.** {}\n\n**Why it matters.** {}\n\n**How to mend it.** {}{}",
        entry.means,
        entry.matters,
        entry.how,
        example(entry, |title, text| format!("\n\n{title}:\n\n```\n{text}\n```"))
    )
}

/// The example before and after, where there is one.
fn example(entry: &Entry, part: impl Fn(&str, &str) -> String) -> String {
    let parts = [("Before", &entry.before), ("After", &entry.after)];
    parts.iter().filter(|(_, text)| !text.is_empty()).map(|(title, text)| part(title, text)).collect()
}

/// A message. Help is not one: viewers put nothing into it and show it as it stands.
pub fn message(text: &str) -> Value {
    object([("text", plain(text).into())])
}

/// Text for inside of a message: braces would be placeholders and brackets links, so they are doubled and
/// escaped as the standard says.
pub fn plain(text: &str) -> String {
    let mut out = String::with_capacity(text.len());
    for c in text.chars() {
        match c {
            '{' | '}' => out.extend([c, c]),
            '[' | ']' | '\\' => out.extend(['\\', c]),
            c => out.push(c),
        }
    }
    out
}
