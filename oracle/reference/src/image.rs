//! Document 01, "The image: a header of counts and offsets": the maxima that `admission` judges by,
//! and the words of an image, which it reads as everybody does. The maxima stand here once more, so
//! that this reading and the crates of the page can disagree.

pub use form::image::{Header, RawNode, u16_at};

/// "Header, 24 bytes"
pub const HEADER: usize = 24;
/// "Node, 16 bytes"
pub const NODE: usize = 16;
pub const MAX_NODES: usize = 2_048;
pub const MAX_NAMES: usize = 1_024;
pub const MAX_TEXT: usize = 16_384;
pub const MAX_NAME: usize = 128;
pub const MAX_ANCESTORS: usize = 64;
/// The length of an image that has every maximum.
pub const MAX_LENGTH: usize = HEADER + NODE * MAX_NODES + 2 * (MAX_NAMES + 1) + MAX_TEXT;
