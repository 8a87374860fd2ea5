//! Whether a text is the one that an image was made from. Every Name, Ident and number of a type carries
//! its bytes and says where they stand, so each is held against the text. What an image does not carry
//! (remarks, other numbers, signs) cannot be told apart.

use crate::Source;
use crate::terminal::safe;
use form::{Node, Tree, kind};
use isonkaypu::Span;
use std::ops::Range;

/// How much is told of what stands in the text instead, in bytes.
const TOLD: usize = 40;

/// The first place where a text differs from what an image says of it.
#[derive(Clone, Debug, PartialEq)]
#[non_exhaustive]
pub struct Difference {
    /// The node that carries the name.
    pub node: usize,
    /// Where that should stand.
    pub span: Span,
    /// The name that should stand there.
    pub expected: String,
    /// What stands there, where the span lies in the text.
    pub found: Option<Found>,
}

/// What stands in a text where a name should.
#[derive(Clone, Debug, PartialEq, Eq)]
#[non_exhaustive]
pub struct Found {
    /// From 1.
    pub line: usize,
    /// From 1; columns count characters.
    pub column: usize,
    /// Of one line and not long.
    pub text: String,
}

impl Difference {
    /// The difference that comes first in the text, where there is one.
    pub fn first(tree: &Tree, text: &[u8]) -> Option<Difference> {
        let differs = |node: &&Node| kind::carries_a_name(node.kind) && !stands(node, text);
        let nodes = tree.nodes.iter().enumerate();
        let (number, node) =
            nodes.filter(|(_, node)| differs(node)).min_by_key(|(_, node)| (node.from, node.to))?;
        Some(Difference {
            node: number,
            span: Span { start: node.from, end: node.to },
            expected: String::from_utf8_lossy(node.text).into_owned(),
            found: found(node, &Source::of(text)),
        })
    }

    /// "line 2, column 10 should have `Ward`, and has `limit`"; what others wrote is made safe.
    pub fn in_words(&self) -> String {
        let Difference { span, expected, .. } = self;
        match &self.found {
            Some(Found { line, column, text }) if text.is_empty() => {
                format!("line {line}, column {column} should have `{expected}`, and has nothing")
            }
            Some(Found { line, column, text }) => {
                format!("line {line}, column {column} should have `{expected}`, and has `{}`", safe(text))
            }
            None => format!(
                "`{expected}` should stand at bytes {} to {}, which is no place in the text",
                span.start, span.end
            ),
        }
    }
}

fn place(node: &Node) -> Range<usize> {
    node.from as usize..node.to as usize
}

/// Does the node's name stand at its place, as a whole word?
fn stands(node: &Node, text: &[u8]) -> bool {
    let place = place(node);
    text.get(place.clone()) == Some(node.text) && whole_words(text, place.clone()) == place
}

/// The place with the rest of the words that it begins and ends in.
fn whole_words(text: &[u8], place: Range<usize>) -> Range<usize> {
    let in_word = |byte: &&u8| byte.is_ascii_alphanumeric() || **byte == b'_';
    let before = text[..place.start].iter().rev().take_while(in_word).count();
    let after = text[place.end..].iter().take_while(in_word).count();
    place.start - before..place.end + after
}

fn found(node: &Node, source: &Source) -> Option<Found> {
    let place = source.place(Span { start: node.from, end: node.to })?;
    // a name that is a part of a word is told with that word, to be told apart from itself
    let part = source.bytes()[place.clone()] == *node.text;
    let Range { start, end } = if part { whole_words(source.bytes(), place) } else { place };
    let (line, column) = source.position(start)?;
    let end = source.whole_chars(end.min(source.range(line).end).min(start + TOLD)).max(start);
    let text = String::from_utf8_lossy(&source.bytes()[start..end]).into_owned();
    Some(Found { line, column, text })
}
