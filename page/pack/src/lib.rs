//! From a `quanta_ast::Contract` to an image and back.
//!
//! The image does not carry all of a contract: operators, the values of literals, durations,
//! `sealed`, `meta` and what an event's parameters are called and of which type they are stay
//! behind. The decoder puts fixed fillers in their places (`unpack`), so an image comes back byte for
//! byte, and a contract comes back equal up to those (`unlike` says where not).
//!
//! Any contract and any bytes may be given: nothing here panics, and nothing here goes down a
//! contract by calling itself further than an image is deep.

#![deny(missing_docs)]
#![cfg_attr(
    not(test),
    deny(clippy::indexing_slicing, clippy::unwrap_used, clippy::expect_used, clippy::panic)
)]

mod error;
mod pack;
mod part;
mod texts;
mod unlike;
mod unpack;

pub use error::{Limit, PackError};
pub use pack::pack;
pub use unlike::unlike;
pub use unpack::unpack;
