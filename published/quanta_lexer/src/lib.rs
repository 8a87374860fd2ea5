//! A stand-in for the published `quanta_lexer`: the published files take only `Span` from it.

/// Where a node stands in the source text. The image carries both words and judges neither.
#[derive(Clone, Copy, Debug, PartialEq, Eq, Hash)]
pub struct Span {
    pub start: u32,
    pub end: u32,
}
