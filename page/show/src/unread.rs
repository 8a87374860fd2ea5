//! Why nothing was checked, in words: of bytes that are no image, and of a contract that has none. Every
//! form says the same of it.

use crate::looks;
use crate::subject::{Outcome, Subject};
use isonkaypu::{Limit, PackError, Span};
use words::Entry;

/// Of what no uploader can mend: the image was not made as the contract says.
const NOT_THE_CONTRACTS_FAULT: &str =
    "nothing in the contract is at fault; the page's engineer should look at how it was packed";

/// Why a subject was not checked.
pub struct Unread {
    /// Document 01's number, where it has one.
    pub number: Option<u16>,
    /// What is wrong.
    pub sentence: String,
    /// How to mend it, in one line.
    pub mend: String,
    /// Where the contract passes a limit; nothing is known of bytes that are no image.
    pub span: Option<Span>,
    /// What there is to say of the number, where that helps whoever wrote the contract.
    pub words: Option<&'static Entry>,
}

impl Unread {
    /// What is to be said; nothing of a contract that was checked.
    pub fn of(subject: &Subject) -> Option<Unread> {
        match subject.outcome() {
            Outcome::Checked(_) => None,
            Outcome::NoImage { refusal, .. } if looks::text_for_image(subject) => {
                let mend = looks::TEXT_FOR_IMAGE.to_string();
                Some(Unread { mend, ..no_image(refusal.number().into(), &refusal) })
            }
            Outcome::NoImage { refusal, .. } => Some(no_image(refusal.number().into(), &refusal)),
            Outcome::NotPacked(error) => Some(not_packed(&error)),
        }
    }
}

fn no_image(number: u16, refusal: &dyn std::fmt::Display) -> Unread {
    let words = words::refusal(number);
    let sentence = words.map_or_else(|| refusal.to_string(), |words| words.fault.clone());
    let mend = words.map_or(NOT_THE_CONTRACTS_FAULT, |words| &words.mend).to_string();
    Unread { number: Some(number), sentence, mend, span: None, words }
}

/// The error's own sentence says which limit it is; the number alone stands for several.
fn not_packed(error: &PackError) -> Unread {
    let number = Some(error.number().into()).filter(|number| *number != 0);
    let ours = matches!(error.limit(), Limit::Refused(_) | Limit::Unlike);
    let words = number.and_then(words::refusal).filter(|_| !ours);
    let mend = words.map_or(NOT_THE_CONTRACTS_FAULT, |words| &words.mend).to_string();
    Unread { number, sentence: error.limit().to_string(), mend, span: Some(error.span()), words }
}
