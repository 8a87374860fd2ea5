//! Any source and any spans: every form for a terminal is made, and nothing of it could move the cursor. A
//! source that fits the image's names is shown, whatever else it has; others are not. Generated images, and
//! the numbers of document 01's plain reading, are held in `oracle/page`.

use crate::common::any::{is_matched, with_any_source};
use crate::common::chance::Chance;
use crate::common::fitted;

#[test]
fn the_examples_with_any_source() {
    let mut chance = Chance::new(6);
    let images: Vec<Vec<u8>> = words::codes().iter().map(|entry| example::image(&entry.before)).collect();
    for round in 0..4_000 {
        let pieces = chance.below(200);
        with_any_source(&images[round % images.len()], pieces, &mut chance);
    }
}

/// A source of one long line.
#[test]
fn a_long_line() {
    let mut chance = Chance::new(9);
    let names = "contract C { invariant a + b + c + d; invariant ".to_string() + &"a + ".repeat(50) + "a; }";
    let (image, source) = fitted(&example::image(&names), &mut chance, |_| "ä\t".repeat(3_000).into_bytes());
    assert!(source.len() > 400_000);
    is_matched(&image, &source);
}
