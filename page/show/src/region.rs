//! Where a span stands in the source, by lines and columns.

use crate::Source;
use isonkaypu::Span;
use std::ops::Range;

/// A span that lies in the source. Lines and columns count from 1, columns by characters; the end is
/// one past the last character.
#[derive(Clone, Debug, PartialEq, Eq)]
pub struct Region {
    pub bytes: Range<usize>,
    pub start: (usize, usize),
    pub end: (usize, usize),
}

impl Region {
    /// The region of a span, where it lies in the source and the source is at hand.
    pub fn of(source: Option<&Source>, span: Span) -> Option<Region> {
        let source = source?;
        let bytes = source.place(span)?;
        let (start, end) = (source.position(bytes.start)?, source.position(bytes.end)?);
        Some(Region { bytes, start, end })
    }

    /// "line 7, column 9"
    pub fn in_words(&self) -> String {
        format!("line {}, column {}", self.start.0, self.start.1)
    }
}
