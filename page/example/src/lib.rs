//! Reads the small part of Quanta that the examples of `words.txt` are written in, so that tests can
//! ask the checker about them. It is no Quanta parser: it is for text that we wrote ourselves, and
//! panics on other text. Spans are byte offsets into the text.

mod grammar;
mod token;
mod tree;

/// The image of an example, with its spans.
pub fn image(text: &str) -> Vec<u8> {
    grammar::contract(text).image()
}
