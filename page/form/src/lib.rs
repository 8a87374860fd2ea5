//! The image form of document 01 for Rust: the kinds of nodes, the maxima, the words of an image,
//! and the tree of an image. Nothing here judges, and nothing here panics: any bytes may be given.

#![deny(missing_docs)]
#![cfg_attr(
    not(test),
    deny(clippy::indexing_slicing, clippy::unwrap_used, clippy::expect_used, clippy::panic)
)]

pub mod image;
pub mod kind;
mod tree;

pub use tree::{Node, Tree};
