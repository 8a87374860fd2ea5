//! A report in the forms that people and programs read.

#![deny(missing_docs)]

mod about;
mod advice;
mod blanks;
mod difference;
mod edit;
mod entries;
mod escape;
mod excerpt;
mod facts;
mod fault;
mod html;
mod ink;
mod json;
mod looks;
mod lots;
mod near;
mod notice;
mod numbers;
mod others;
mod region;
mod sarif;
mod sha256;
mod source;
mod subject;
mod terminal;
mod text;
mod tree;
mod unread;
mod uses;

pub use about::made_by;
pub use difference::{Difference, Found};
pub use edit::{Edit, Way};
pub use entries::{Group, by_entry};
pub use fault::{Fault, Mark, faults, list_refused};
pub use html::html;
pub use json::{json, json_of};
pub use numbers::numbers;
pub use sarif::{sarif, sarif_of};
pub use source::Source;
pub use subject::{Given, LONGEST_SOURCE, Outcome, Subject, Text};
pub use terminal::{safe, wrapped};
pub use text::{text, text_in_colour, why, why_in_colour};
pub use tree::tree;
pub use uses::Use;
