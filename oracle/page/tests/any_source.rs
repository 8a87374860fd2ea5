//! Any image, any source and any spans: what page/show/tests/any_source.rs says, on generated images, and the
//! numbers are those of document 01's plain reading, whatever the source.

#[path = "../../../page/show/tests/common/mod.rs"]
mod common;

use common::any::{is_matched_between_anything, is_not_shown, is_shown, with_any_source};
use common::chance::Chance;
use common::shown;
use generate::patterns::patterns;
use generate::{Rng, admitted, damaged, limits};
use show::numbers;

fn has_the_numbers(image: &[u8], source: &[u8]) {
    for source in [Some(source), None] {
        assert!(shown(numbers, "any", image, source) == reference::report(image));
    }
}

#[test]
fn any_source_and_any_spans() {
    let mut chance = Chance::new(5);
    for index in 0..2_000 {
        let image = admitted(&mut Rng::of_image(5, index));
        let pieces = chance.below(60);
        has_the_numbers(&image, &chance.nasty(pieces));
        with_any_source(&image, pieces, &mut chance);
    }
}

#[test]
fn the_examples_have_their_numbers() {
    for entry in words::codes() {
        has_the_numbers(&example::image(&entry.before), entry.before.as_bytes());
        has_the_numbers(&example::image(&entry.before), entry.after.as_bytes());
    }
}

#[test]
fn damaged_images_and_bytes() {
    let mut chance = Chance::new(7);
    for index in 0..3_000 {
        let mut rng = Rng::of_image(7, index);
        let image = admitted(&mut rng);
        let length = chance.below(100);
        for (bytes, source) in
            [(damaged(&mut rng, &image), &b"contract C { }"[..]), (chance.bytes(length), b"")]
        {
            is_shown(&bytes, source);
            has_the_numbers(&bytes, source);
        }
    }
}

#[test]
fn patterns_and_limits() {
    let source = "x\n".repeat(300);
    let mut chance = Chance::new(8);
    for pattern in patterns() {
        let image = pattern.tree.image();
        has_the_numbers(&image, source.as_bytes());
        is_not_shown(&image, source.as_bytes());
        is_matched_between_anything(&image, &mut chance);
    }
    for limit in limits() {
        has_the_numbers(&limit.image, source.as_bytes());
        is_shown(&limit.image, source.as_bytes());
        if isonkaypu::check_image(&limit.image).is_ok() {
            is_matched_between_anything(&limit.image, &mut chance);
        }
    }
}
