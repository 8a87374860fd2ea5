//! What the README tells the page's engineer, tried: the program that it shows is the example, and with the
//! lines that it shows a ledger of its own builds and runs it, on its own `quanta_ast` and `quanta_lexer`.

use std::fs;
use std::path::{Path, PathBuf};
use std::process::Command;

fn root() -> PathBuf {
    Path::new(env!("CARGO_MANIFEST_DIR")).join("../..")
}

fn read(path: &Path) -> String {
    fs::read_to_string(path).unwrap_or_else(|error| panic!("{}: {error}", path.display()))
}

/// The block of the README that stands between two marks of this name.
fn shown(name: &str) -> String {
    let readme = read(&root().join("README.md"));
    let mark = format!("<!-- {name} -->");
    let between = readme.split(&mark).nth(1).unwrap_or_else(|| panic!("the README has no {mark}"));
    let block = between.trim().split_once('\n').and_then(|(_, block)| block.strip_suffix("```"));
    block.unwrap_or_else(|| panic!("no block between the marks {mark}")).to_string()
}

#[test]
fn the_readme_shows_the_example() {
    assert_eq!(shown("upload.rs"), read(&root().join("page/show/examples/upload.rs")));
}

/// Writes a file, unless it stands there already: cargo builds again what has been written again.
fn write(path: &Path, text: &str) {
    if fs::read_to_string(path).is_ok_and(|there| there == text) {
        return;
    }
    fs::create_dir_all(path.parent().expect("a folder")).expect("a folder for the test");
    fs::write(path, text).expect("a file for the test");
}

/// Copies a folder, but for what is built and for tests, with some of its texts changed on the way.
fn copy(from: &Path, to: &Path, change: &dyn Fn(&Path, String) -> String) {
    for entry in fs::read_dir(from).expect("a folder") {
        let path = entry.expect("an entry").path();
        let name = path.file_name().expect("a name");
        match path.is_dir() {
            true if ["target", "tests", "examples"].iter().any(|left_out| *left_out == name) => {}
            true => copy(&path, &to.join(name), change),
            false => write(&to.join(name), &change(&path, read(&path))),
        }
    }
}

/// `page/` with the two lines of its manifest that the README shows in the place of those with these names.
fn pointed_page(to: &Path) {
    let lines = shown("page/Cargo.toml");
    let name = |line: &str| line.split(" = ").next().unwrap_or_default().to_string();
    let new = |line: &str| lines.lines().find(|new| name(new) == name(line));
    let manifest = root().join("page/Cargo.toml");
    let text = read(&manifest);
    assert_eq!((lines.lines().count(), text.lines().filter_map(new).count()), (2, 2));
    let pointed: String = text.lines().map(|line| format!("{}\n", new(line).unwrap_or(line))).collect();
    let change = |path: &Path, text: String| if path == manifest { pointed.clone() } else { text };
    copy(&root().join("page"), to, &change);
}

fn package(name: &str, rest: &str) -> String {
    format!("[package]\nname = \"{name}\"\nversion = \"7.1.0\"\nedition = \"2021\"\n\n{rest}")
}

/// The published files ask no more of a span than this, so the ledger's own may have no more.
fn plainer(_: &Path, text: String) -> String {
    text.replace(
        "#[derive(Clone, Copy, Debug, PartialEq, Eq, Hash)]",
        "#[derive(Clone, Copy, Debug, PartialEq)]",
    )
}

/// The ledger's repository: its own crates of the language, and the page.
fn ledger(to: &Path) {
    let members = "members = [\"upload\", \"quanta_ast\", \"quanta_lexer\"]";
    write(&to.join("Cargo.toml"), &format!("[workspace]\nresolver = \"2\"\n{members}\n"));
    for name in ["quanta_ast", "quanta_lexer"] {
        copy(&root().join("published").join(name).join("src"), &to.join(name).join("src"), &plainer);
    }
    let on_lexer = "[dependencies]\nquanta_lexer = { path = \"../quanta_lexer\" }\n";
    write(&to.join("quanta_ast/Cargo.toml"), &package("quanta_ast", on_lexer));
    write(&to.join("quanta_lexer/Cargo.toml"), &package("quanta_lexer", ""));
    write(&to.join("upload/Cargo.toml"), &package("upload", &shown("upload/Cargo.toml")));
    write(&to.join("upload/src/main.rs"), &shown("upload.rs"));
}

/// The folder of the proved library that the tests are linked with.
fn library() -> PathBuf {
    let own = if cfg!(target_arch = "x86_64") { "target/staticlib" } else { "target/native/staticlib" };
    std::env::var_os("ISONKAYPU_STATICLIB").map_or_else(|| root().join(own), PathBuf::from)
}

#[test]
fn a_ledger_builds_on_its_own_crates() {
    let folder = Path::new(env!("CARGO_TARGET_TMPDIR")).join("engineer");
    pointed_page(&folder.join("isonkaypu/page"));
    ledger(&folder.join("ledger"));
    let library = library().canonicalize().expect("the folder of the library");
    let run = Command::new(env!("CARGO"))
        .args(["run", "--quiet", "--offline", "--target-dir"])
        .arg(folder.join("target"))
        .env("ISONKAYPU_STATICLIB", library)
        .current_dir(folder.join("ledger/upload"))
        .output()
        .expect("cargo runs");
    let said = String::from_utf8_lossy(&run.stdout);
    assert!(run.status.success(), "{}", String::from_utf8_lossy(&run.stderr));
    let begins = "REFUSED  ward.quanta: 1 fault\n\n[50] ";
    assert!(said.starts_with(begins) && said.ends_with(&(show::made_by() + "\n")), "{said}");
    assert!(
        said.contains("\n  1 | contract Ward { invariant issued; }\n    |                           ^^^^^^ "),
        "{said}"
    );
}
