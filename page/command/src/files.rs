//! Reading files, never more of them than can be used, and writing a report to one, whole or not at all.

use form::image::MAX_LENGTH;
use show::LONGEST_SOURCE;
use std::fs::{self, File};
use std::io::{self, Read, Write};
use std::os::fd::AsFd;
use std::path::{Path, PathBuf};
use streams::{Stream, was_closed};

/// The image, as far as one byte past the longest: what is longer is refused by its length, whatever
/// else it has.
pub fn image(path: &Path) -> Result<Vec<u8>, String> {
    start(path, MAX_LENGTH + 1)
}

/// The source, as far as one byte past the longest that is shown.
pub fn source(path: &Path) -> Result<Vec<u8>, String> {
    start(path, LONGEST_SOURCE + 1)
}

/// The first bytes of a file, or of standard input for `-`.
fn start(path: &Path, most: usize) -> Result<Vec<u8>, String> {
    let mut bytes = Vec::new();
    let read = opened(path).and_then(|file| file.take(most as u64).read_to_end(&mut bytes));
    let name = if is_standard(path) { "standard input".into() } else { path.display().to_string() };
    read.map(|_| bytes).map_err(|error| format!("could not read {name}: {error}"))
}

/// `-` is standard input or output.
pub fn is_standard(path: &Path) -> bool {
    path == Path::new("-")
}

fn opened(path: &Path) -> io::Result<File> {
    if !is_standard(path) {
        return File::open(path);
    }
    if was_closed(Stream::Input) {
        return Err(io::Error::other("it is closed"));
    }
    // read as a file: `Stdin` takes an input that cannot be read for an empty one
    io::stdin().as_fd().try_clone_to_owned().map(File::from)
}

/// Writes a whole file: beside it first, then in its place, so that nobody finds a part of a report, or
/// loses the last one to a full disk.
pub fn write(path: &Path, text: &str, inputs: &[&Path]) -> Result<(), String> {
    let told = |error: io::Error| format!("could not write {}: {error}", path.display());
    let place = place(path, inputs).map_err(told)?;
    let beside = beside(&place).map_err(told)?;
    let done = write_new(&beside, &place, text).and_then(|()| fs::rename(&beside, &place));
    if done.is_err() {
        // what is left is nobody's report; where it was never made, there is nothing to take away
        let _ = fs::remove_file(&beside);
    }
    done.map_err(told)
}

/// Where the file stands, through links. What is there already must be a file, and none that was read.
fn place(path: &Path, inputs: &[&Path]) -> io::Result<PathBuf> {
    let Ok(place) = fs::canonicalize(path) else {
        return Ok(path.to_path_buf());
    };
    if !fs::metadata(&place)?.is_file() {
        return Err(io::Error::other("it is no file"));
    }
    if inputs.iter().any(|input| fs::canonicalize(input).is_ok_and(|input| input == place)) {
        return Err(io::Error::other("the report would take the place of what it is about"));
    }
    Ok(place)
}

/// A name beside the file that nobody else has.
fn beside(place: &Path) -> io::Result<PathBuf> {
    let name = place.file_name().ok_or(io::Error::other("it is no file's name"))?;
    let mut hidden = std::ffi::OsString::from(".");
    hidden.push(name);
    hidden.push(format!(".{}.part", std::process::id()));
    Ok(place.with_file_name(hidden))
}

fn write_new(beside: &Path, place: &Path, text: &str) -> io::Result<()> {
    let mut file = File::create_new(beside)?;
    if let Ok(before) = fs::metadata(place) {
        file.set_permissions(before.permissions())?;
    }
    file.write_all(text.as_bytes())?;
    file.sync_all()
}
