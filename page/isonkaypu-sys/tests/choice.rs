//! Which archive is linked, tried on repositories of a few files: the one that was made from the crates that
//! stand there, and no other. The two scripts are the repository's own; the toolchain is played by a script.

#[path = "../build/choose.rs"]
mod choose;

use choose::{Chosen, named, own};
use std::cell::RefCell;
use std::fs;
use std::io::Write;
use std::ops::Deref;
use std::path::{Path, PathBuf};
use std::process::{Command, Stdio};

/// A folder that goes with its test. It stands outside of this repository, whose toolchain takes every source
/// that it finds there for one of a crate.
struct Folder(PathBuf);

impl Deref for Folder {
    type Target = Path;

    fn deref(&self) -> &Path {
        &self.0
    }
}

impl Drop for Folder {
    fn drop(&mut self) {
        let _ = fs::remove_dir_all(&self.0);
    }
}

/// A repository with two crates, the second being the library's own, and the scripts as they are.
fn repository(name: &str) -> Folder {
    let root = Folder(std::env::temp_dir().join(format!("isonkaypu-{}-{name}", std::process::id())));
    write(&root.join("crates.txt"), "image:\n");
    write(&root.join("crates/image/src/lib.rt"), "one");
    write(&root.join("crates/image/proofs/Lib.antt"), "proof");
    write(&root.join("crates/isonkaypu/src/lib.rt"), "the face");
    for script in ["archive", "made-from"] {
        let text = fs::read_to_string(Path::new(env!("CARGO_MANIFEST_DIR")).join(script)).expect(script);
        program(&root.join("page/isonkaypu-sys").join(script), &text);
    }
    root
}

fn write(path: &Path, text: &str) {
    fs::create_dir_all(path.parent().expect("a folder")).expect("a folder for the test");
    fs::write(path, text).expect("a file for the test");
}

/// A program for a test, written by another process. While this one had the file open, a test beside it could
/// start a program, which holds all open files for a moment, and what was written could not be run then.
fn program(path: &Path, text: &str) {
    write(path, "");
    let script = "cat >\"$0\" && chmod 755 \"$0\"";
    let mut writer =
        Command::new("sh").args(["-c", script]).arg(path).stdin(Stdio::piped()).spawn().expect("sh");
    writer.stdin.take().expect("its input").write_all(text.as_bytes()).expect("a program for the test");
    assert!(writer.wait().expect("it ends").success());
}

/// What the repository's script says that its crates are.
fn made_from(root: &Path) -> String {
    let output = Command::new(root.join("page/isonkaypu-sys/made-from")).output().expect("it runs");
    assert!(output.status.success());
    String::from_utf8(output.stdout).expect("text")
}

/// What `sha256sum` says of the archives below.
const SUM: &str = "9e691d5adacf0e102f203100842ffaba4e2a7dfe3dbd536827d3c0db8c7e88f1  libisonkaypu.a\n";

/// An archive in a folder of the repository, with a note or without.
fn archive(root: &Path, made_from: Option<&str>) -> PathBuf {
    let folder = root.join("target/staticlib");
    write(&folder.join("libisonkaypu.a"), "an archive");
    if let Some(made_from) = made_from {
        note(&folder, made_from);
    }
    folder
}

fn note(folder: &Path, made_from: &str) {
    write(&folder.join("made-from"), &format!("{made_from}{SUM}"));
}

fn refused(folder: &Path, root: &Path, why: &str) {
    let said = named(folder, root).expect_err(why);
    assert!(said.contains(why) && said.contains("`page/isonkaypu-sys/archive` makes it"), "{said}");
}

#[test]
fn a_named_archive_that_was_made_from_what_stands_here() {
    let root = repository("same");
    let here = made_from(&root);
    let folder = archive(&root, Some(&here));
    let made_from = here.trim_end().to_string();
    assert_eq!(named(&folder, &root), Ok(Chosen { folder, made_from }));
}

/// The toolchain keeps copies of a crate's files beside them: the library is not made from these.
#[test]
fn what_the_toolchain_keeps_counts_for_nothing() {
    let root = repository("kept");
    let folder = archive(&root, Some(&made_from(&root)));
    let sources = choose::sources(&root);
    for part in ["src/lib.rt", "specs/Lib.antt", "proofs/Lib.antt"] {
        write(&root.join("crates/image").join("out/rlib/image.rlib/lang").join(part), "kept");
    }
    assert!(named(&folder, &root).is_ok());
    assert_eq!(choose::sources(&root), sources);
    let parts = ["crates/image/proofs", "crates/image/src", "crates/isonkaypu/src", "crates.txt"];
    assert_eq!(sources, parts.map(|part| root.join(part)));
    // a function that is called `out` is proved like any other
    write(&root.join("crates/image/proofs").join("out/Answers.antt"), "its proof");
    refused(&folder, &root, "made from other crates");
}

#[test]
fn a_named_archive_that_was_made_from_something_else() {
    let root = repository("other");
    let folder = archive(&root, Some(&made_from(&root)));
    for (path, text) in [
        ("crates/image/src/lib.rt", "two"),
        ("crates/image/proofs/Lib.antt", "another proof"),
        ("crates/image/specs/Lib.antt", "one more file"),
        ("crates.txt", "image:\nrules: image\n"),
    ] {
        note(&folder, &made_from(&root));
        assert!(named(&folder, &root).is_ok());
        write(&root.join(path), text);
        refused(&folder, &root, "made from other crates than those that stand here");
    }
    // a file under another name
    note(&folder, &made_from(&root));
    let sources = root.join("crates/image/src");
    fs::rename(sources.join("lib.rt"), sources.join("other.rt")).expect("renamed");
    refused(&folder, &root, "made from other crates");
}

#[test]
fn a_named_archive_that_says_nothing_or_is_not_there() {
    let root = repository("silent");
    let folder = archive(&root, None);
    refused(&folder, &root, "nobody says what the library was made from");
    let here = made_from(&root);
    for text in
        [&here, SUM, &format!("{here}{here}"), &format!("{here}{SUM}{SUM}"), &format!("853071\n{SUM}")]
    {
        write(&folder.join("made-from"), text);
        refused(&folder, &root, "nobody says what the library was made from");
    }
    refused(&root, &root, "the proved library is not there");
}

/// Another archive in the place of the one that the note was written for.
#[test]
fn a_note_speaks_of_its_own_archive_alone() {
    let root = repository("replaced");
    let folder = archive(&root, Some(&made_from(&root)));
    assert!(named(&folder, &root).is_ok());
    write(&folder.join("libisonkaypu.a"), "another archive");
    refused(&folder, &root, "nobody says what the library was made from");
}

/// `page` alone, in a folder where the crates are not: the note is all there is to go by.
#[test]
fn where_no_crates_stand_beside() {
    let root = repository("alone");
    let elsewhere = made_from(&root);
    fs::remove_dir_all(root.join("crates")).expect("removed");
    fs::remove_file(root.join("crates.txt")).expect("removed");
    let folder = archive(&root, Some(&elsewhere));
    assert_eq!(named(&folder, &root).map(|chosen| chosen.made_from), Ok(elsewhere.trim_end().to_string()));
    fs::remove_file(folder.join("made-from")).expect("removed");
    refused(&folder, &root, "nobody says what the library was made from");
    // half of them is no repository to go by, and no reason to trust a note
    write(&root.join("crates.txt"), "image:\n");
    note(&folder, &elsewhere);
    assert!(named(&folder, &root).is_err());
}

/// A toolchain that makes an archive of what stands in the repository, in the folder of the library's own crate, and
/// notes that it was asked.
const RT: &str = r#"#!/bin/sh
case $1 in
version) echo "a kit" ;;
lib) mkdir -p out && cat ../image/src/lib.rt >"out/lib$(basename "$PWD").a" && echo >>../../asked ;;
*) exit 1 ;;
esac
"#;

/// Runs the repository's own choice with that toolchain, by a script in the place of `archive` that finds it.
fn with_toolchain(root: &Path, rt: &str) {
    program(&root.join("bin/rt"), rt);
    program(&root.join("bin/uname"), "#!/bin/sh\necho x86_64\n");
    let scripts = root.join("page/isonkaypu-sys");
    fs::rename(scripts.join("archive"), scripts.join("really-archive")).expect("renamed");
    program(
        &scripts.join("archive"),
        "#!/bin/sh\nhere=$(dirname \"$0\")\nPATH=\"$here/../../bin:$PATH\" exec \"$here/really-archive\"\n",
    );
}

#[test]
fn the_repositorys_own_is_made_anew_where_it_is_another() {
    let root = repository("own");
    with_toolchain(&root, RT);
    let folder = root.join("target/staticlib");
    let told = RefCell::new(Vec::new());
    let choose = || own(&folder, &root, |what| told.borrow_mut().push(what.to_string()));
    let asked = || fs::read_to_string(root.join("asked")).map_or(0, |text| text.len());
    // not there yet, then there and left alone
    for _ in 0..2 {
        assert_eq!(choose().map(|chosen| chosen.made_from + "\n"), Ok(made_from(&root)));
        assert_eq!((asked(), told.borrow().len()), (1, 1));
    }
    // changed crates
    write(&root.join("crates/image/src/lib.rt"), "two");
    assert_eq!(choose().map(|chosen| chosen.made_from + "\n"), Ok(made_from(&root)));
    assert_eq!(fs::read_to_string(folder.join("libisonkaypu.a")).expect("made"), "two");
    // no note
    fs::remove_file(folder.join("made-from")).expect("removed");
    assert!(choose().is_ok());
    assert_eq!(asked(), 3);
    let told = told.borrow();
    let whys = ["is not there", "made from other crates", "nobody says what the library was made from"];
    for (what, why) in told.iter().zip(whys) {
        assert!(what.contains(why) && what.contains("a quarter of an hour or more"), "{what}");
    }
    assert_eq!(told.len(), whys.len());
}

/// A library that could not be proved leaves no note behind, and nothing is linked.
#[test]
fn what_cannot_be_made_is_not_linked() {
    let root = repository("fails");
    let folder = archive(&root, Some(&made_from(&root)));
    write(&root.join("crates/image/src/lib.rt"), "not proved");
    with_toolchain(&root, "#!/bin/sh\nexit 1\n");
    let said = own(&folder, &root, |_| {}).expect_err("it fails");
    assert!(said.contains("failed") && said.contains("`page/isonkaypu-sys/archive` makes it"), "{said}");
    assert!(!folder.join("made-from").exists());
}

/// Crates that change while the library is made from them: nobody could say what it is.
#[test]
fn crates_that_change_meanwhile() {
    let root = repository("meanwhile");
    with_toolchain(&root, &RT.replace("echo >>../../asked", "echo changed >../image/src/lib.rt"));
    assert!(own(&root.join("target/staticlib"), &root, |_| {}).is_err());
    assert!(!root.join("target/staticlib/made-from").exists());
}
