//! The checker behind the upload page, for the page's engineer: a contract or its image in, a report
//! out. What decides is the proved library; here a contract is packed into an image, the library is
//! asked, and its answers are given names.
//!
//! ```
//! use quanta_ast::{Contract, Ident};
//! use quanta_lexer::Span;
//!
//! // as the page's parser reads it from `contract Ward { }`
//! let name = Ident { text: "Ward".into(), span: Span { start: 9, end: 13 } };
//! let contract = Contract { name, items: vec![], span: Span { start: 0, end: 17 } };
//!
//! let report = isonkaypu::check(&contract)?;
//! assert!(report.accepted(), "{report}");
//! # Ok::<(), isonkaypu::PackError>(())
//! ```
//!
//! - `check` takes a contract as the parser gives it, `check_image` the bytes of an image. Let
//!   something through only where `Report::accepted` says so.
//! - A place in a report is a node of the image and a span: the parser's own `Span`, wherever one stands
//!   here. **It is two byte offsets into the source that was parsed**, of the first byte and of the one
//!   past the last; the image carries them as the contract has them and nobody judges them, so they may
//!   lie outside of the source.
//! - An offence names the entry that it stands in (`Offence::entry`), which is how reviewers are assigned.
//! - `why` says which clauses and which statements use a lot, `lots` which lots there are. Every 61 and 62 of a
//!   report has the same with it: `Offence::reasons`.
//! - `show` makes reports for people and for programs of it, with the lines of the source.
//! - An accepted contract can still be wrong in what no rule looks at: supply (`conserve`), signed
//!   authority, undeclared names in statements, stock that never gets a name, and more. Every report of
//!   `show` names all of it.
//! - Any contract and any bytes may be given, from any number of threads at once. Nothing here panics,
//!   and 256 KiB of stack are enough for every call. A contract that is too deep is refused; only how it
//!   is dropped is its own matter.

#![deny(missing_docs)]
#![cfg_attr(
    not(test),
    deny(clippy::indexing_slicing, clippy::unwrap_used, clippy::expect_used, clippy::panic)
)]

mod answers;
mod doubt;
mod entry;
mod name;
mod offence;
mod pass;
mod questions;
mod refusal;
mod report;
mod why;

pub use doubt::Doubt;
pub use entry::Entry;
pub use offence::{Offence, Place};
pub use pack::{Limit, PackError};
pub use pass::Pass;
pub use quanta_lexer::Span;
pub use questions::{is_declared_asset, is_known_asset, is_state};
pub use refusal::ImageRefusal;
pub use report::{Report, Verdict};
pub use why::{Lot, Reason, WhyError, lots, why};

use quanta_ast::Contract;

/// Checks a contract.
///
/// The contract is packed into an image. Since the packer is not proved, the image is then unpacked,
/// and what comes of it must be the contract again, up to what an image does not carry and no rule
/// looks at: operators, the values of literals, durations, `sealed`, `meta`, the names and types of
/// an event's parameters. Only then is the library asked.
///
/// An error says which limit of the image form the contract passes, and where. That the image is not
/// the contract's is an error too (`Limit::Unlike`, `Limit::Refused`).
pub fn check(contract: &Contract) -> Result<Report, PackError> {
    check_packed(contract, &pack::pack(contract)?)
}

/// Checks the image of a contract, once it is seen that it is the contract's.
fn check_packed(contract: &Contract, image: &[u8]) -> Result<Report, PackError> {
    let unlike = match pack::unpack(image) {
        Some(unpacked) => pack::unlike(contract, &unpacked),
        None => Some(contract.span),
    };
    match unlike {
        Some(span) => Err(PackError::new(Limit::Unlike, span)),
        None => check_image(image)
            .map_err(|refusal| PackError::new(Limit::Refused(refusal.number()), contract.span)),
    }
}

/// Checks an image. Any bytes may be given: what is no image is refused.
pub fn check_image(image: &[u8]) -> Result<Report, ImageRefusal> {
    Ok(Report::of(image, &answers::Answers::of(image)?))
}

/// The kit that the proved library was made with, in one line.
pub fn kit() -> &'static str {
    isonkaypu_sys::kit()
}

/// What the proved library was made from: one SHA-256 over the proved crates (`crates.txt` and all of their
/// sources, specs and proofs), in 64 hexadecimal digits. Reports for people show the first 12.
pub fn library() -> &'static str {
    isonkaypu_sys::library()
}

/// What later versions will add to cannot be taken for whole: a match over the passes, the doubts, the
/// limits or the reasons has an arm for others, and nobody but this crate makes an offence.
///
/// ```compile_fail,E0004
/// fn all(pass: isonkaypu::Pass) -> bool {
///     match pass {
///         isonkaypu::Pass::Resolve | isonkaypu::Pass::Access | isonkaypu::Pass::Linear => true,
///     }
/// }
/// ```
///
/// ```compile_fail,E0004
/// fn stands(reason: isonkaypu::Reason) -> isonkaypu::Place {
///     match reason {
///         isonkaypu::Reason::Clause { name, .. } => name,
///         isonkaypu::Reason::Use { ident, .. } => ident,
///     }
/// }
/// ```
///
/// ```compile_fail,E0638
/// fn code(offence: &isonkaypu::Offence) -> u16 {
///     let isonkaypu::Offence { code, place: _, name: _, related: _, entry: _, reasons: _ } = offence;
///     *code
/// }
/// ```
#[cfg(doctest)]
pub struct GrowsLater;

#[cfg(test)]
mod tests {
    use super::*;

    /// The images of the examples, which are all different contracts.
    fn images() -> Vec<Vec<u8>> {
        words::codes()
            .iter()
            .flat_map(|entry| [&entry.before, &entry.after])
            .map(|text| example::image(text))
            .collect()
    }

    /// The image with one more name, which nobody uses.
    fn with_a_name_more(image: &[u8]) -> Vec<u8> {
        let tree = form::Tree::of(image).unwrap();
        let nodes: Vec<_> = tree.all().map(|i| form::image::RawNode::of(image, i).unwrap()).collect();
        let mut names: Vec<_> =
            tree.nodes.iter().map(|node| node.text).filter(|text| !text.is_empty()).collect();
        names.sort_unstable();
        names.dedup();
        assert_eq!(form::image::layout(&nodes, &names), image);
        names.push(b"zzz");
        form::image::layout(&nodes, &names)
    }

    /// Were the packer to make another contract's image, or none, nobody would be asked.
    #[test]
    fn an_image_that_is_not_the_contracts_is_an_error() {
        let images = images();
        let contract = pack::unpack(&images[0]).unwrap();
        assert!(check_packed(&contract, &images[0]).is_ok());
        for other in &images[1..] {
            let error = check_packed(&contract, other).unwrap_err();
            assert_eq!((error.limit(), error.number()), (Limit::Unlike, 0));
        }
        let error = check_packed(&contract, b"no image").unwrap_err();
        assert_eq!((error.limit(), error.span()), (Limit::Unlike, contract.span));
    }

    /// Were it to make one that is refused: a name that nobody uses stands in the table.
    #[test]
    fn an_image_that_is_refused_is_an_error() {
        let [image, ..] = &images()[..] else { panic!("no examples") };
        let contract = pack::unpack(image).unwrap();
        let error = check_packed(&contract, &with_a_name_more(image)).unwrap_err();
        assert_eq!((error.limit(), error.number()), (Limit::Refused(8), 8));
    }
}
