//! The images that the comparisons run over: those written by hand first, then generated ones.

use generate::patterns::{most_reasons, patterns, reasons};
use generate::{Parts, Rng, admitted, crowded, damaged, limits};

/// How many images, and from which seed.
#[derive(Clone, Copy, Debug)]
pub struct Range {
    pub images: u64,
    pub seed: u64,
}

/// The hand-written images: patterns, and the limits on both sides.
pub fn by_hand() -> Vec<(String, Vec<u8>)> {
    let patterns = patterns().into_iter().map(|p| (p.name.to_string(), p.tree.image()));
    patterns.chain(limits().into_iter().map(|l| (l.name, l.image))).collect()
}

/// The images of request E3 that are written by hand.
pub fn of_reasons() -> Vec<(String, Vec<u8>)> {
    let explained = reasons().into_iter().map(|case| (case.name, case.tree));
    let most = most_reasons().into_iter().map(|(name, tree, _)| (name, tree));
    explained.chain(most).map(|(name, tree)| (format!("E3, {name}"), tree.image())).collect()
}

/// The `index`-th admitted image of a seed.
pub fn admitted_image(seed: u64, index: u64) -> Vec<u8> {
    admitted(&mut Rng::of_image(seed, index))
}

/// The `index`-th image of a seed in which lots crowd.
pub fn crowded_image(seed: u64, index: u64) -> Vec<u8> {
    crowded(&mut Rng::of_image(seed, index))
}

/// The `index`-th damaged image of a seed.
pub fn damaged_image(seed: u64, index: u64) -> Vec<u8> {
    let mut rng = Rng::of_image(seed, index);
    let image = admitted(&mut rng);
    damaged(&mut rng, &image)
}

/// By hand, then admitted ones.
pub fn by_hand_and_admitted(range: Range) -> impl Iterator<Item = (String, Vec<u8>)> {
    let generated = (0..range.images).map(move |index| labelled(range.seed, index));
    by_hand().into_iter().chain(generated)
}

/// Every class: by hand, then of each eight generated ones five admitted as they come, one crowded, two
/// damaged.
pub fn all_classes(range: Range) -> impl Iterator<Item = (String, Vec<u8>)> {
    let generated = (0..range.images).map(move |index| match index % 8 {
        3 | 7 => (format!("damaged image {index} of seed {}", range.seed), damaged_image(range.seed, index)),
        5 => labelled_crowded(range.seed, index),
        _ => labelled(range.seed, index),
    });
    by_hand().into_iter().chain(of_reasons()).chain(generated)
}

/// By hand, then one crowded to each that is admitted as it comes.
pub fn half_crowded(range: Range) -> impl Iterator<Item = (String, Vec<u8>)> {
    let generated = (0..range.images).map(move |index| match index % 2 {
        1 => labelled_crowded(range.seed, index),
        _ => labelled(range.seed, index),
    });
    by_hand().into_iter().chain(of_reasons()).chain(generated)
}

fn labelled(seed: u64, index: u64) -> (String, Vec<u8>) {
    (format!("image {index} of seed {seed}"), admitted_image(seed, index))
}

/// A crowded image with its label.
pub fn labelled_crowded(seed: u64, index: u64) -> (String, Vec<u8>) {
    (format!("crowded image {index} of seed {seed}"), crowded_image(seed, index))
}

/// Names to ask about: each of an admitted image, the same in the other case, its prefixes, names
/// that the rules know, and bytes that are no name.
pub fn names_to_ask(image: Option<&[u8]>, rng: &mut Rng) -> Vec<Vec<u8>> {
    let mut names: Vec<Vec<u8>> =
        ["QTOV", "qtov", "QTO", "QTOV0", "", "Q_Asset", "é", "a b"].map(|n| n.as_bytes().to_vec()).to_vec();
    names.push((0..rng.below(6)).map(|_| rng.below(128) as u8).collect());
    for name in image.map(|i| Parts::of(i).names).unwrap_or_default() {
        names.push(other_case(&name));
        names.push(name[..name.len() - 1].to_vec());
        names.push(name);
    }
    names
}

fn other_case(name: &[u8]) -> Vec<u8> {
    let turn = |b: &u8| {
        if b.is_ascii_uppercase() { b.to_ascii_lowercase() } else { b.to_ascii_uppercase() }
    };
    name.iter().map(turn).collect()
}
