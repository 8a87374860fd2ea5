//! Any image with any source: what every form for a terminal keeps to, and whether the source is shown.

use super::chance::Chance;
use super::{fitted, respanned, shown};
use show::{text, tree};

/// Every form for a terminal is made, with the source and without, and nothing of it could move the cursor.
pub fn is_shown(image: &[u8], source: &[u8]) {
    for source in [Some(source), None] {
        for form in [text, tree] {
            let form = shown(form, "any", image, source);
            assert!(form.ends_with('\n'));
            assert!(!form.chars().any(|c| c.is_control() && c != '\n'), "{form:?}");
        }
    }
}

/// The same, and the source is not shown: it is another one's.
pub fn is_not_shown(image: &[u8], source: &[u8]) {
    is_shown(image, source);
    let text = shown(text, "any", image, Some(source));
    assert!(text.starts_with("OTHER TEXT  any\n") && !text.contains(" | "), "{text}");
}

/// The same, and the source is taken for the image's.
pub fn is_matched(image: &[u8], source: &[u8]) {
    is_shown(image, source);
    let text = shown(text, "any", image, Some(source));
    assert!(text.starts_with("ACCEPTED  any: ") || text.starts_with("REFUSED  any: "), "{text}");
}

/// An image with a source that nobody made it from, and then with one that has every name where the image says
/// and anything at all between them.
pub fn with_any_source(image: &[u8], pieces: usize, chance: &mut Chance) {
    let source = chance.nasty(pieces);
    is_not_shown(&respanned(image, |_| chance.span(source.len())), &source);
    is_matched_between_anything(image, chance);
}

/// The image with a source that has every name where the image says, and anything at all between them.
pub fn is_matched_between_anything(image: &[u8], chance: &mut Chance) {
    let nasty = |chance: &mut Chance| {
        let pieces = chance.below(6);
        chance.nasty(pieces)
    };
    let (image, source) = fitted(image, chance, nasty);
    is_matched(&image, &source);
}
