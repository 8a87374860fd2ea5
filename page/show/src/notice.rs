//! What every form for people says of a text that was given with a contract and is not shown.

use crate::subject::{LONGEST_SOURCE, Subject, Text};
use crate::terminal::safe;

/// What to do with a text that is not the image's.
pub const OTHER_TEXT_MEND: &str =
    "give the text that the image was made from, or make a new image from this text and check that one";

/// What is said of a text that is not the image's, in sentences. Names are made safe, and stand in
/// backticks.
pub struct OtherText {
    /// That it is not, and where it first differs.
    pub says: String,
    /// What the report does not say.
    pub unsaid: String,
}

pub fn other_text(subject: &Subject) -> Option<OtherText> {
    let (name, difference) = subject.other_text()?;
    let (name, image) = (safe(name), safe(subject.image_label()));
    Some(OtherText {
        says: format!("`{name}` is not the text that `{image}` was made from: {}.", difference.in_words()),
        unsaid: format!("Nothing is said of `{name}`, and no line of it is shown."),
    })
}

/// Why a text that may be the image's is not shown.
pub fn not_shown(subject: &Subject) -> Option<String> {
    match subject.text() {
        Text::TooLong(given) => Some(format!(
            "The text `{}` is too long to show, and was not compared with the image: it has more than {} MiB.",
            safe(given.name),
            LONGEST_SOURCE >> 20
        )),
        _ => None,
    }
}
