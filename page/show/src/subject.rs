//! What is shown: what the checker says of a contract, and the contract's text where it is at hand and
//! is the one that the image was made from.

use crate::difference::Difference;
use form::Tree;
use isonkaypu::{ImageRefusal, PackError, Report};

/// The longest text that is shown, in bytes. A contract that an image can hold is far shorter.
pub const LONGEST_SOURCE: usize = 1 << 20;

/// What became of a contract.
#[derive(Clone, Copy)]
#[non_exhaustive]
pub enum Outcome<'a> {
    /// Its image was admitted and checked; the report holds the image.
    Checked(&'a Report),
    /// The bytes are no image.
    NoImage {
        /// The bytes.
        image: &'a [u8],
        /// Why they are none.
        refusal: ImageRefusal,
    },
    /// It has no image, since it passes a limit of the image form.
    NotPacked(PackError),
}

/// A text that was given with a contract.
#[derive(Clone, Copy, Debug, PartialEq, Eq)]
#[non_exhaustive]
pub struct Given<'a> {
    /// What the reader calls it.
    pub name: &'a str,
    /// Its bytes.
    pub bytes: &'a [u8],
}

/// What became of the text that was given with a contract.
#[derive(Clone, Debug, PartialEq)]
#[non_exhaustive]
pub enum Text<'a> {
    /// None was given.
    NotGiven,
    /// It is shown: it has every name where the image says, or there is no image that could say so since
    /// the contract could not be packed.
    Shown(Given<'a>),
    /// It is not the one that the image was made from: where it first differs. Nothing of it is shown.
    Other(Given<'a>, Difference),
    /// It is longer than `LONGEST_SOURCE`, and was not looked at.
    TooLong(Given<'a>),
    /// There is no image that it could be held against.
    NotHeld(Given<'a>),
}

/// What every form is made from.
pub struct Subject<'a> {
    label: &'a str,
    outcome: Outcome<'a>,
    text: Text<'a>,
    by_entry: bool,
}

impl<'a> Subject<'a> {
    /// A contract whose image was checked. The label is what the reader calls it: the image's name.
    pub fn checked(label: &'a str, report: &'a Report) -> Subject<'a> {
        Subject::of(label, Outcome::Checked(report))
    }

    /// Bytes that are no image.
    pub fn no_image(label: &'a str, image: &'a [u8], refusal: ImageRefusal) -> Subject<'a> {
        Subject::of(label, Outcome::NoImage { image, refusal })
    }

    /// A contract that could not be packed.
    pub fn not_packed(label: &'a str, error: PackError) -> Subject<'a> {
        Subject::of(label, Outcome::NotPacked(error))
    }

    fn of(label: &'a str, outcome: Outcome<'a>) -> Subject<'a> {
        Subject { label, outcome, text: Text::NotGiven, by_entry: false }
    }

    /// The same with the contract's text and what the reader calls that. The image's spans are byte offsets
    /// into it. Any bytes may be given: those that differ from what the image says are not shown, and every
    /// form says so.
    pub fn with_source(self, name: &'a str, source: &'a [u8]) -> Subject<'a> {
        let given = Given { name, bytes: source };
        let text = match (self.outcome, source.len() > LONGEST_SOURCE) {
            (_, true) => Text::TooLong(given),
            (Outcome::NoImage { .. }, _) => Text::NotHeld(given),
            (Outcome::NotPacked(_), _) => Text::Shown(given),
            (Outcome::Checked(report), _) => held(report.tree(), given),
        };
        Subject { text, ..self }
    }

    /// The same with its faults grouped by entry in the text for people, which else has them in the list's order. A
    /// page is always by entry, and JSON has both orders.
    pub fn by_entry(self) -> Subject<'a> {
        Subject { by_entry: true, ..self }
    }

    /// Whether the text for people has its faults by entry.
    pub fn is_by_entry(&self) -> bool {
        self.by_entry
    }

    /// What the reader calls what the report is about: the text where it is shown, else the image.
    pub fn label(&self) -> &'a str {
        match self.text {
            Text::Shown(given) => given.name,
            _ => self.label,
        }
    }

    /// What the reader calls the image.
    pub fn image_label(&self) -> &'a str {
        self.label
    }

    /// What became of it.
    pub fn outcome(&self) -> Outcome<'a> {
        self.outcome
    }

    /// The report, where there is one.
    pub fn report(&self) -> Option<&'a Report> {
        match self.outcome {
            Outcome::Checked(report) => Some(report),
            _ => None,
        }
    }

    /// Whether the contract was accepted, and the text that was given with it, if any, is its own.
    pub fn accepted(&self) -> bool {
        self.report().is_some_and(Report::accepted) && self.other_text().is_none()
    }

    /// The image, or the bytes that are none.
    pub fn image(&self) -> Option<&'a [u8]> {
        match self.outcome {
            Outcome::Checked(report) => Some(report.image()),
            Outcome::NoImage { image, .. } => Some(image),
            Outcome::NotPacked(_) => None,
        }
    }

    /// What became of the text.
    pub fn text(&self) -> &Text<'a> {
        &self.text
    }

    /// The contract's text, where it is shown.
    pub fn source(&self) -> Option<&'a [u8]> {
        match self.text {
            Text::Shown(given) => Some(given.bytes),
            _ => None,
        }
    }

    /// The name of a text that is not the image's, and where it first differs.
    pub fn other_text(&self) -> Option<(&'a str, &Difference)> {
        match &self.text {
            Text::Other(given, difference) => Some((given.name, difference)),
            _ => None,
        }
    }
}

/// The text held against the names of the image. Every admitted image has a tree.
fn held<'a>(tree: Option<Tree>, given: Given<'a>) -> Text<'a> {
    match tree.map(|tree| Difference::first(&tree, given.bytes)) {
        Some(None) => Text::Shown(given),
        Some(Some(difference)) => Text::Other(given, difference),
        None => Text::NotHeld(given),
    }
}
