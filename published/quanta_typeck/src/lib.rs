//! The published passes, byte for byte. Only `signature` is ours: `conserve.rs` leans on a file
//! that is not published here.

#![allow(dead_code, clippy::all)]

#[rustfmt::skip]
pub mod access;
#[rustfmt::skip]
pub mod conserve;
#[rustfmt::skip]
pub mod error;
#[rustfmt::skip]
pub mod linear;
#[rustfmt::skip]
pub mod model;
#[rustfmt::skip]
pub mod resolve;
pub mod signature;
