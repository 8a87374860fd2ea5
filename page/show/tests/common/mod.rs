//! What the tests of all forms show: the ward's contract, and images and sources of all sorts.

#![allow(dead_code)] // a program that takes these in may take a part

use chance::Chance;
use form::image::{HEADER, NODE};
use form::{Tree, kind};
use isonkaypu::{Limit, PackError, Place, Span, check_image};
use show::Subject;
use std::path::Path;

pub mod any;
pub mod chance;
pub mod contracts;
pub mod follow;
pub mod json;
pub mod pages;
pub mod random;
pub mod tags;

/// A file of `samples/`.
pub fn sample(name: &str) -> Vec<u8> {
    let path = Path::new(env!("CARGO_MANIFEST_DIR")).join("../../samples").join(name);
    std::fs::read(&path).unwrap_or_else(|error| panic!("{}: {error}", path.display()))
}

/// What people are shown of the library: the first 12 of 64 hexadecimal digits.
pub fn library_digits() -> &'static str {
    let whole = isonkaypu::library();
    assert!(whole.len() == 64 && whole.bytes().all(|byte| byte.is_ascii_hexdigit()), "{whole}");
    &whole[..12]
}

/// The source of the ward's contract, with its faults.
pub fn ward() -> String {
    String::from_utf8(sample("ward.quanta")).expect("the sample is text")
}

/// Shows the ward's contract with its faults, and its source at hand.
pub fn shown_ward(form: fn(&Subject) -> String) -> String {
    shown(form, "ward.quanta", &sample("ward.image"), Some(&sample("ward.quanta")))
}

/// Images with every code: the examples of the file of words, and the ward's contract.
pub fn images() -> Vec<Vec<u8>> {
    let examples = words::codes().iter().map(|entry| example::image(&entry.before));
    examples.chain([sample("ward.image")]).collect()
}

/// The ward's contract with its faults mended.
pub fn mended() -> String {
    ward()
        .replace("        writes stock\n        limits", "        writes stock, issued\n        limits")
        .replace("        send(pharmacist, part);\n", "")
        .replace(
            "event Issued(ward: Ward, amount: u64);",
            "event Issued(ward: Ward, amount: u64);\n    event Destroyed();",
        )
}

/// Shows an image, with a source or without, in one form; both have the same label.
pub fn shown(form: fn(&Subject) -> String, label: &str, image: &[u8], source: Option<&[u8]>) -> String {
    shown_with(form, (label, image), source.map(|source| (label, source)))
}

/// The same with a label for each.
pub fn shown_with(
    form: fn(&Subject) -> String,
    (label, image): (&str, &[u8]),
    source: Option<(&str, &[u8])>,
) -> String {
    let checked = check_image(image);
    let subject = match &checked {
        Ok(report) => Subject::checked(label, report),
        Err(refusal) => Subject::no_image(label, image, *refusal),
    };
    form(&match source {
        Some((name, source)) => subject.with_source(name, source),
        None => subject,
    })
}

/// Everything that can keep a contract from being packed.
pub const LIMITS: [Limit; 9] = [
    Limit::Nodes,
    Limit::Ancestors,
    Limit::NameLength,
    Limit::NameForm,
    Limit::OtherForm,
    Limit::Names,
    Limit::Text,
    Limit::Refused(8),
    Limit::Unlike,
];

/// The text of a contract with a name that no image can have.
pub const UMLAUT: &str = "contract Ward {\n    state { ausgabe_für: u64; }\n}\n";

/// Shows a contract that could not be packed, since a limit is passed there.
pub fn not_packed(
    form: fn(&Subject) -> String,
    limit: Limit,
    at: (u32, u32),
    source: Option<&[u8]>,
) -> String {
    let subject = Subject::not_packed("ward.quanta", PackError::new(limit, Span { start: at.0, end: at.1 }));
    form(&match source {
        Some(source) => subject.with_source("ward.quanta", source),
        None => subject,
    })
}

/// The same at the name that has an umlaut, with the text at hand.
pub fn umlaut(form: fn(&Subject) -> String, limit: Limit) -> String {
    let start = UMLAUT.find("ausgabe").expect("it is there") as u32;
    not_packed(form, limit, (start, start + 12), Some(UMLAUT.as_bytes()))
}

/// Shows a source that the example reader can read, with itself at hand.
pub fn shown_source(form: fn(&Subject) -> String, source: &str) -> String {
    shown(form, "ward.quanta", &example::image(source), Some(source.as_bytes()))
}

/// The related place that the library gives the only 62 of a source.
pub fn related_of_62(source: &str) -> Option<Place> {
    let report = check_image(&example::image(source)).expect("an image");
    let mut of_62 = report.offences().iter().filter(|offence| offence.code == 62);
    let (one, more) = (of_62.next().expect("a 62"), of_62.next());
    assert_eq!(more, None, "one 62");
    one.related
}

/// An image with other span words: node i gets those that `span` says.
pub fn respanned(image: &[u8], mut span: impl FnMut(usize) -> (u32, u32)) -> Vec<u8> {
    let mut image = image.to_vec();
    let nodes = usize::from(u16::from_le_bytes([image[2], image[3]]));
    for i in 0..nodes {
        let (from, to) = span(i);
        let at = HEADER + NODE * i + 8;
        image[at..at + 4].copy_from_slice(&from.to_le_bytes());
        image[at + 4..at + 8].copy_from_slice(&to.to_le_bytes());
    }
    image
}

/// As `respanned`, but the nodes that carry a name keep their spans, so that a source still fits.
pub fn respanned_but_names(image: &[u8], mut span: impl FnMut(usize) -> (u32, u32)) -> Vec<u8> {
    let tree = Tree::of(image).expect("a tree");
    respanned(image, |i| match tree.nodes[i] {
        node if kind::carries_a_name(node.kind) => (node.from, node.to),
        _ => span(i),
    })
}

/// An image and a source that fit each other, whatever else stands in the source: the image's names, each
/// with blanks around it, between pieces that `piece` makes. Nodes that carry no name have spans by chance.
pub fn fitted(
    image: &[u8],
    chance: &mut Chance,
    mut piece: impl FnMut(&mut Chance) -> Vec<u8>,
) -> (Vec<u8>, Vec<u8>) {
    let tree = Tree::of(image).expect("a tree");
    let mut source = Vec::new();
    let mut names = vec![None; tree.len()];
    for (i, node) in tree.nodes.iter().enumerate().filter(|(_, node)| kind::carries_a_name(node.kind)) {
        source.extend(piece(chance));
        source.push(b' ');
        names[i] = Some((source.len() as u32, (source.len() + node.text.len()) as u32));
        source.extend(node.text);
        source.push(b' ');
    }
    source.extend(piece(chance));
    (respanned(image, |i| names[i].unwrap_or_else(|| chance.span(source.len()))), source)
}

/// The ward's contract with spans that lie in each other, cross each other, run over lines, are empty
/// and lie outside: a `let` that is there twice is the related place of one fault and the place of another.
pub fn crossing(form: fn(&Subject) -> String) -> String {
    let again = "let part = stock.get(ward).split(amount);";
    let source = ward().replace("send(pharmacist, part);", again);
    let image = example::image(&source);
    let at = |text: &str| source.find(text).expect("it is there") as u32;
    let spans = [
        (at("send(to"), at("emit Issued")),
        (at("let part"), at("part);") + 4),
        (at("amount);"), at("amount);")),
    ];
    let mut other = 0..;
    let report = check_image(&image).expect("an image");
    let codes: Vec<u16> = report.offences().iter().map(|offence| offence.code).collect();
    assert_eq!(codes, [27, 30, 51, 61]);
    let places: Vec<usize> = report.offences().iter().map(|offence| offence.place.node).collect();
    let outside = u32::try_from(source.len()).expect("a short source") + 7;
    let image = respanned_but_names(&image, |node| match places.iter().position(|place| *place == node) {
        Some(i) if i < spans.len() => spans[i],
        _ => (other.next().unwrap_or(0), outside),
    });
    shown(form, "ward.quanta", &image, Some(source.as_bytes()))
}
