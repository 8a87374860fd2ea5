//! Which archive is linked: one that was made from the crates that stand here, or none. `build.rs` and the
//! tests of the choice both take this file in.

use std::fs;
use std::path::{Path, PathBuf};
use std::process::{Command, Output, Stdio};

pub const ARCHIVE: &str = "libisonkaypu.a";
/// Beside the archive: what the script `made-from` printed where it was made, and the archive's own sum as
/// `sha256sum` writes it.
pub const NOTE: &str = "made-from";
const SCRIPTS: &str = "page/isonkaypu-sys";
const WHAT_TO_RUN: &str = "`page/isonkaypu-sys/archive` makes it, on a machine with the Rattle toolchain, and prints its \
                           folder, for ISONKAYPU_STATICLIB";
/// Said before the archive is made, since that can take long.
const TAKES: &str = "it is proved and compiled now: a quarter of an hour or more from nothing, seconds where it is \
                     proved already";

/// An archive that may be linked.
#[derive(Debug, PartialEq, Eq)]
pub struct Chosen {
    pub folder: PathBuf,
    /// What it was made from, in 64 hexadecimal digits.
    pub made_from: String,
}

/// The archive of a folder that the caller names. It is never made anew: it is the caller's.
pub fn named(folder: &Path, root: &Path) -> Result<Chosen, String> {
    fitting(folder, here(root)?.as_deref()).map_err(|why| format!("{why}\n{WHAT_TO_RUN}"))
}

/// The repository's own archive, which is made anew where it was made from something else. Before that
/// `tell` is told why, and how long it takes.
pub fn own(folder: &Path, root: &Path, tell: impl Fn(&str)) -> Result<Chosen, String> {
    let here = here(root)?;
    fitting(folder, here.as_deref()).or_else(|why| {
        tell(&format!("{why}; {TAKES}"));
        fitting(&made(root)?, here.as_deref()).map_err(|why| format!("{why}\n{WHAT_TO_RUN}"))
    })
}

/// The list of the crates, and their folder.
const CRATES: [&str; 2] = ["crates.txt", "crates"];

/// The files and folders that decide what the library is, as far as they stand here: not what the toolchain keeps
/// beside them.
pub fn sources(root: &Path) -> Vec<PathBuf> {
    let crates = fs::read_dir(root.join(CRATES[1])).into_iter().flatten().flatten().map(|entry| entry.path());
    let parts = crates.flat_map(|folder| ["src", "specs", "proofs"].map(|part| folder.join(part)));
    let mut found: Vec<PathBuf> = parts.chain([root.join(CRATES[0])]).filter(|path| path.exists()).collect();
    found.sort();
    found
}

/// What a library made here would be made from; nothing where the crates do not stand beside `page`.
fn here(root: &Path) -> Result<Option<String>, String> {
    if !CRATES.iter().any(|name| root.join(name).exists()) {
        return Ok(None);
    }
    let said = run(&root.join(SCRIPTS).join(NOTE))?;
    match digest(&said) {
        Some(digest) => Ok(Some(digest)),
        None => Err(format!("`{SCRIPTS}/{NOTE}` is to print one SHA-256, and printed {said:?}")),
    }
}

/// The archive of a folder, where it was made from this; where nobody knows from what, its note is taken.
fn fitting(folder: &Path, here: Option<&str>) -> Result<Chosen, String> {
    let archive = folder.join(ARCHIVE);
    let shown = archive.display();
    if !archive.is_file() {
        return Err(format!("the proved library is not there: {shown}"));
    }
    let Some(made_from) = noted(folder) else {
        return Err(format!(
            "nobody says what the library was made from: {shown} has no `{NOTE}` about it beside it"
        ));
    };
    if here.is_some_and(|here| here != made_from) {
        return Err(format!("the library was made from other crates than those that stand here: {shown}"));
    }
    Ok(Chosen { folder: folder.to_path_buf(), made_from })
}

/// What the note says that the archive was made from, where it speaks of this very archive.
fn noted(folder: &Path) -> Option<String> {
    let text = fs::read_to_string(folder.join(NOTE)).ok()?;
    let [made_from, sum] = text.lines().collect::<Vec<_>>()[..] else { return None };
    digest(sum.strip_suffix(ARCHIVE)?.trim_end())?;
    // the first line names no file, and is passed over
    let check = Command::new("sha256sum").args(["--check", "--status", NOTE]).current_dir(folder).status();
    if check.is_ok_and(|status| status.success()) { digest(made_from) } else { None }
}

/// A SHA-256 alone on its line.
fn digest(text: &str) -> Option<String> {
    let line = text.strip_suffix('\n').unwrap_or(text);
    let is_digit = |byte: u8| byte.is_ascii_digit() || (b'a'..=b'f').contains(&byte);
    (line.len() == 64 && line.bytes().all(is_digit)).then(|| line.to_string())
}

/// Has the repository make the archive: the folder that it then stands in.
fn made(root: &Path) -> Result<PathBuf, String> {
    let said = run(&root.join(SCRIPTS).join("archive")).map_err(|why| format!("{why}\n{WHAT_TO_RUN}"))?;
    Ok(PathBuf::from(said.trim_end()))
}

/// What a script prints; its standard error goes where ours does.
fn run(script: &Path) -> Result<String, String> {
    let run = Command::new(script).stdin(Stdio::null()).stderr(Stdio::inherit()).output();
    let Output { status, stdout, .. } = run.map_err(|why| format!("{}: {why}", script.display()))?;
    if !status.success() {
        return Err(format!("{} failed ({status})", script.display()));
    }
    Ok(String::from_utf8_lossy(&stdout).into_owned())
}
