//! The C header says what the crates say: the functions that are declared here are its functions, all of them;
//! its version is theirs; and it has a name for every number of document 01, once.

use std::collections::BTreeSet;
use std::fs;
use std::path::Path;

/// The words of a text that begin with `isonkaypu_`.
fn functions(text: &str) -> BTreeSet<String> {
    let is_of_name = |c: char| c.is_ascii_alphanumeric() || c == '_';
    let words = text.split(|c| !is_of_name(c)).filter(|word| word.starts_with("isonkaypu_"));
    words.map(str::to_string).collect()
}

fn read(path: &str) -> String {
    fs::read_to_string(Path::new(env!("CARGO_MANIFEST_DIR")).join(path)).expect(path)
}

fn header() -> String {
    read("../../crates/isonkaypu/isonkaypu.h")
}

#[test]
fn the_headers_version_is_ours() {
    let header = header();
    let defined = |name: &str| {
        let mut values = header.lines().filter_map(|line| line.strip_prefix(&format!("#define {name} ")));
        (values.next().unwrap_or_default(), values.next())
    };
    assert_eq!(defined("ISONKAYPU_VERSION_MAJOR"), (env!("CARGO_PKG_VERSION_MAJOR"), None));
    assert_eq!(defined("ISONKAYPU_VERSION_MINOR"), (env!("CARGO_PKG_VERSION_MINOR"), None));
    assert_eq!(defined("ISONKAYPU_VERSION_PATCH"), (env!("CARGO_PKG_VERSION_PATCH"), None));
    assert_eq!(defined("ISONKAYPU_VERSION"), (concat!('"', env!("CARGO_PKG_VERSION"), '"'), None));
}

/// A line `ISONKAYPU_NAME = NUMBER, /* in a few words */`, in its three parts.
fn named(line: &str) -> Option<(&str, u16, &str)> {
    let (name, rest) = line.trim_start().split_once(" = ")?;
    let (number, said) = rest.split_once("/* ")?;
    let number = number.trim_end().trim_end_matches(',').parse().ok()?;
    name.starts_with("ISONKAYPU_").then_some((name, number, said.strip_suffix(" */")?))
}

#[test]
fn every_number_has_its_name() {
    let header = header();
    let named: Vec<_> = header.lines().filter_map(named).collect();
    let numbers: Vec<u16> = named.iter().map(|(_, number, _)| *number).collect();
    let known: Vec<u16> = [&[0], words::REFUSALS, words::CODES].concat();
    assert_eq!(numbers, known);
    let names: BTreeSet<&str> = named.iter().map(|(name, ..)| *name).collect();
    assert_eq!(names.len(), named.len(), "a name stands twice");
    assert!(named.iter().all(|(_, _, said)| said.len() > 10), "a number without its words: {named:?}");
}

#[test]
fn every_function_of_the_header_is_declared() {
    let declared = functions(&read("src/exported.rs"));
    assert_eq!(declared, functions(&header()));
    assert!(declared.len() > 10, "{declared:?}");
}
