//! The words and signs of an example, each with its place.

use std::ops::Range;

#[derive(Clone, Debug, PartialEq, Eq)]
pub struct Token<'a> {
    pub text: &'a str,
    pub place: Range<usize>,
}

/// Signs of two characters; all other signs have one.
const PAIRS: &[&str] = &["<=", ">=", "==", "!=", "&&", "||"];

/// Letters of any script, so that names that an image refuses can be written down.
fn in_word(c: char) -> bool {
    c.is_alphanumeric() || c == '_'
}

/// The tokens of a text; `//` begins a remark.
pub fn tokens(text: &str) -> Vec<Token<'_>> {
    let mut tokens = Vec::new();
    let mut at = 0;
    while let Some(first) = text[at..].chars().next() {
        let rest = &text[at..];
        let length = length(rest, first);
        if !first.is_whitespace() && !rest.starts_with("//") {
            tokens.push(Token { text: &rest[..length], place: at..at + length });
        }
        at += length;
    }
    tokens
}

fn length(rest: &str, first: char) -> usize {
    if rest.starts_with("//") {
        rest.find('\n').unwrap_or(rest.len())
    } else if in_word(first) {
        rest.find(|c| !in_word(c)).unwrap_or(rest.len())
    } else if PAIRS.iter().any(|pair| rest.starts_with(pair)) {
        2
    } else {
        first.len_utf8()
    }
}
