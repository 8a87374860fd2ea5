//! Why a contract has no image: the limit of the image form that it passes.

use form::image::{MAX_ANCESTORS, MAX_NAME, MAX_NAMES, MAX_NODES, MAX_TEXT};
use quanta_lexer::Span;
use std::fmt;

/// What stands in the way of an image. All but the last two are limits that a contract passes.
#[derive(Clone, Copy, Debug, PartialEq, Eq, Hash)]
#[non_exhaustive]
pub enum Limit {
    /// More than 2,048 parts.
    Nodes,
    /// A part inside of more than 64 others.
    Ancestors,
    /// A name of no bytes, or of more than 128.
    NameLength,
    /// A name that is neither an identifier nor a number text.
    NameForm,
    /// A number text where an identifier must stand, or the other way round.
    OtherForm,
    /// More than 1,024 different names.
    Names,
    /// More than 16,384 bytes of different names.
    Text,
    /// The image that was made of the contract is refused, with this number. No contract is known
    /// for which this happens.
    Refused(u8),
    /// The image that was made of the contract does not say what the contract says. No contract is
    /// known for which this happens.
    Unlike,
}

impl Limit {
    /// The number of document 01 that an image would be refused with; 0 for `Unlike`, for which
    /// document 01 has none.
    pub fn number(self) -> u8 {
        match self {
            Limit::Nodes | Limit::Names => 3,
            Limit::NameLength | Limit::NameForm | Limit::Text => 5,
            Limit::OtherForm => 6,
            Limit::Ancestors => 7,
            Limit::Refused(number) => number,
            Limit::Unlike => 0,
        }
    }
}

impl fmt::Display for Limit {
    fn fmt(&self, f: &mut fmt::Formatter<'_>) -> fmt::Result {
        match self {
            Limit::Nodes => write!(f, "the contract has more than {MAX_NODES} parts"),
            Limit::Ancestors => write!(f, "a part stands inside of more than {MAX_ANCESTORS} others"),
            Limit::NameLength => write!(f, "a name is not 1 to {MAX_NAME} bytes long"),
            Limit::NameForm => write!(f, "a name has something else than letters, digits and `_`"),
            Limit::OtherForm => write!(f, "a name begins with a digit, or a number of a type does not"),
            Limit::Names => write!(f, "the contract has more than {MAX_NAMES} different names"),
            Limit::Text => write!(f, "the different names are more than {MAX_TEXT} bytes together"),
            Limit::Refused(number) => {
                write!(f, "the image made of the contract is refused as image {number}")
            }
            Limit::Unlike => write!(f, "the image made of the contract does not say what the contract says"),
        }
    }
}

/// The limit that a contract passes, and the part of the contract that passes it.
///
/// Where several are passed, it is the one at the first part in the order of the image: a part
/// before what it holds, and that from first to last. At one part they are looked at in the order in
/// which `Limit` has them.
// Of the parser's `Span` no more is asked than the published files ask: it may have no `Eq` and no `Hash`.
#[derive(Clone, Copy, Debug, PartialEq)]
pub struct PackError {
    limit: Limit,
    span: Span,
}

impl PackError {
    /// The error of a part that stands there.
    pub fn new(limit: Limit, span: Span) -> PackError {
        PackError { limit, span }
    }

    /// Which limit is passed.
    pub fn limit(&self) -> Limit {
        self.limit
    }

    /// Document 01's number, as `Limit::number` gives it.
    pub fn number(&self) -> u8 {
        self.limit.number()
    }

    /// Where the part that passes the limit stands in the source: byte offsets, as the contract has
    /// them.
    pub fn span(&self) -> Span {
        self.span
    }
}

impl fmt::Display for PackError {
    fn fmt(&self, f: &mut fmt::Formatter<'_>) -> fmt::Result {
        let Span { start, end } = self.span;
        write!(f, "{}, at bytes {start} to {end} of the source", self.limit)
    }
}

impl std::error::Error for PackError {}
