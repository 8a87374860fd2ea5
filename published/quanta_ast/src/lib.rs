//! The published `ast.rs`, byte for byte, with nothing added.

#[rustfmt::skip]
mod ast;

pub use ast::*;
