//! The comparisons: the reference against the published Rust (`rust`), against what document 01
//! says by hand (`patterns`), against the report program (`report`), against the proved library
//! (`port`) and, in what consumes a counted occurrence and in why a lot is refused, against ways of
//! their own (`consumers`, `why`); and the page's crate against the published Rust (`page`).

pub mod consumers;
pub mod images;
pub mod judge;
pub mod page;
pub mod patterns;
pub mod port;
pub mod report;
pub mod rust;
pub mod why;

mod dump;
pub mod mismatch;
pub mod shrink;
mod tally;

pub use dump::dump;

use std::process::ExitCode;

/// Prints what a command has to say and ends as it went.
pub fn finish(outcome: Result<String, String>) -> ExitCode {
    let (text, code) = match outcome {
        Ok(text) => (text, ExitCode::SUCCESS),
        Err(text) => (text, ExitCode::FAILURE),
    };
    print!("{text}");
    code
}
