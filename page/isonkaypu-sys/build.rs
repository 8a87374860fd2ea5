//! Links the proved static library, and records what it was made from and with which kit. It stands in
//! the folder that ISONKAYPU_STATICLIB names, or else in the repository, where it is made from the proved
//! crates when it is not there or was made from others (`build/choose.rs`). Where it cannot be had the
//! build ends here and says what to run: there is no checker without it.

#[path = "build/choose.rs"]
mod choose;

use choose::Chosen;
use std::env;
use std::fs::{self, OpenOptions};
use std::io::Write;
use std::path::{Path, PathBuf};
use std::process::{Command, exit};

/// Beside the archive: the line that `rt version` printed where it was made.
const KIT: &str = "kit";

fn main() {
    println!("cargo:rerun-if-changed=build.rs");
    println!("cargo:rerun-if-changed=build");
    println!("cargo:rerun-if-changed=made-from");
    println!("cargo:rerun-if-env-changed=ISONKAYPU_STATICLIB");
    if let Err(why) = link() {
        eprintln!("{why}");
        exit(1);
    }
}

fn link() -> Result<(), String> {
    let root = PathBuf::from(env::var_os("CARGO_MANIFEST_DIR").unwrap_or_default()).join("../..");
    for path in choose::sources(&root) {
        println!("cargo:rerun-if-changed={}", path.display());
    }
    let chosen = chosen(&root)?;
    // else a stale archive would stay linked
    for file in [choose::ARCHIVE, choose::NOTE] {
        println!("cargo:rerun-if-changed={}", chosen.folder.join(file).display());
    }
    println!("cargo:rustc-env=ISONKAYPU_LIBRARY={}", chosen.made_from);
    println!("cargo:rustc-env=ISONKAYPU_KIT={}", kit(&chosen.folder)?);
    println!("cargo:rustc-link-search=native={}", chosen.folder.display());
    println!("cargo:rustc-link-lib=static:-bundle=isonkaypu");
    Ok(())
}

/// The archive of the folder that the caller names, or the repository's own.
fn chosen(root: &Path) -> Result<Chosen, String> {
    if let Some(folder) = env::var_os("ISONKAYPU_STATICLIB") {
        return choose::named(Path::new(&folder), root);
    }
    // `rt` writes archives for x86-64; `archive` puts those for other processors elsewhere
    let of_rt = env::var("CARGO_CFG_TARGET_ARCH").is_ok_and(|processor| processor == "x86_64");
    choose::own(&root.join(if of_rt { "target/staticlib" } else { "target/native/staticlib" }), root, tell)
}

/// Tells whoever waits. Cargo keeps what a build script prints until that has ended, which here may be
/// minutes later, so a terminal is told at once.
fn tell(what: &str) {
    println!("cargo:warning={what}");
    eprintln!("{what}");
    if let Ok(mut terminal) = OpenOptions::new().write(true).open("/dev/tty") {
        let _ = writeln!(terminal, "\n{what}");
    }
}

/// The kit that the archive was made with: what is noted beside it, or else what `rt` says here.
fn kit(folder: &Path) -> Result<String, String> {
    let note = folder.join(KIT);
    let said = match fs::read_to_string(&note) {
        Ok(text) => {
            println!("cargo:rerun-if-changed={}", note.display());
            text
        }
        Err(_) => version_of_rt(&note)?,
    };
    let line = said.trim_end();
    if line.is_empty() || line.contains('\n') {
        return Err(format!("{} is to be the one line that `rt version` prints", note.display()));
    }
    Ok(line.to_string())
}

fn version_of_rt(note: &Path) -> Result<String, String> {
    let cannot = |why: String| {
        let unknown = "nobody says which kit the proved library was made with";
        format!("{unknown}: there is no {}, and `rt version` {why}", note.display())
    };
    let output = Command::new("rt").arg("version").output().map_err(|why| cannot(format!("fails: {why}")))?;
    if !output.status.success() {
        return Err(cannot(format!("ends with {}", output.status)));
    }
    Ok(String::from_utf8_lossy(&output.stdout).into_owned())
}
