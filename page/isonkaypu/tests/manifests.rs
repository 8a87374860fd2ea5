//! What the manifests of `page/` say: it rests on the published crates and the proved library alone, so
//! nothing of `oracle/` is named; and every crate says which Rust it asks for and under which licence it is.

use std::fs;
use std::path::{Path, PathBuf};

fn page() -> PathBuf {
    Path::new(env!("CARGO_MANIFEST_DIR")).join("..")
}

fn read(path: &Path) -> String {
    fs::read_to_string(path).unwrap_or_else(|error| panic!("{}: {error}", path.display()))
}

/// The manifests of the members.
fn members() -> Vec<PathBuf> {
    let folders = fs::read_dir(page()).expect("a folder").map(|entry| entry.expect("an entry").path());
    let manifests: Vec<_> =
        folders.map(|path| path.join("Cargo.toml")).filter(|path| path.is_file()).collect();
    assert!(manifests.len() >= 8, "{manifests:?}");
    manifests
}

/// Every path in the manifests, but those of the programs' own files.
fn paths(text: &str) -> Vec<&str> {
    let named = text.split("path = \"").skip(1).filter_map(|rest| rest.split('"').next());
    named.filter(|path| !path.ends_with(".rs")).collect()
}

#[test]
fn page_rests_on_the_published_crates_alone() {
    let workspace = read(&page().join("Cargo.toml"));
    let leads_out = |line: &&str| paths(line).iter().any(|path| path.starts_with(".."));
    let outside = workspace.lines().filter(leads_out).filter_map(|line| line.split(" = ").next());
    assert_eq!(outside.collect::<Vec<_>>(), ["quanta_lexer", "quanta_ast"]);
    for member in members() {
        assert_eq!(paths(&read(&member)), [""; 0], "{}", member.display());
    }
}

#[test]
fn every_crate_says_which_rust_it_asks_for() {
    let workspace = read(&page().join("Cargo.toml"));
    assert!(workspace.contains("\nrust-version = \"1.88\"\n"));
    assert!(workspace.contains("\nlicense = \"Apache-2.0 OR MIT\"\n"));
    for member in members() {
        for key in ["rust-version", "license", "version", "edition"] {
            let line = format!("\n{key}.workspace = true\n");
            assert!(read(&member).contains(&line), "{}: {key}", member.display());
        }
    }
}
