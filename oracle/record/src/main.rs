//! `record answers DIR` writes a fixed list of images with their answers, for a program that
//! replays them; `record generated N DIR` does so with many images, N of them generated, in as many
//! files as it takes; `record samples DIR` writes the sample images.
//!
//! Every answer is the reference's, and where the image is admitted the published Rust gave the
//! same verdicts. The layout is in the README that is written beside the answers.

mod layout;
mod selection;

use std::fs;
use std::io;
use std::path::Path;
use std::process::ExitCode;

const USAGE: &str = "record answers DIR\nrecord generated N DIR\nrecord samples DIR\n";

/// The program takes recordings that are shorter than this (`ROOM` in crates/replay).
const ROOM: usize = 450_000;

fn main() -> ExitCode {
    let arguments: Vec<String> = std::env::args().skip(1).collect();
    let words: Vec<&str> = arguments.iter().map(String::as_str).collect();
    compare::finish(match words.as_slice() {
        ["answers", folder] => answers(Path::new(folder)),
        ["generated", images, folder] => match images.parse() {
            Ok(images) => generated(images, Path::new(folder)),
            Err(_) => Err(USAGE.to_string()),
        },
        ["samples", folder] => samples(Path::new(folder)),
        _ => Err(USAGE.to_string()),
    })
}

fn answers(folder: &Path) -> Result<String, String> {
    let images = selection::images()?;
    let bytes = layout::file(&images);
    write(folder, "answers.bin", &bytes)?;
    write(folder, "README.md", layout::readme(images.len(), bytes.len(), ROOM).as_bytes())?;
    Ok(format!("{} images, {} bytes\n", images.len(), bytes.len()))
}

fn generated(images: u64, folder: &Path) -> Result<String, String> {
    let images = selection::generated(images)?;
    let files = layout::files(&images, ROOM);
    for (number, bytes) in files.iter().enumerate() {
        write(folder, &format!("{number:04}.bin"), bytes)?;
    }
    Ok(format!("{} images in {} recordings\n", images.len(), files.len()))
}

fn samples(folder: &Path) -> Result<String, String> {
    let p2 = generate::patterns::p2().image();
    let ward = generate::ward().image();
    write(folder, "p2.image", &p2)?;
    write(folder, "ward.image", &ward)?;
    let mut text = String::new();
    for (name, image) in [("p2.image", p2), ("ward.image", ward)] {
        text += &format!("{name}: {} bytes\n{}", image.len(), reference::report(&image));
    }
    Ok(text)
}

fn write(folder: &Path, name: &str, bytes: &[u8]) -> Result<(), String> {
    let path = folder.join(name);
    let failed = |e: io::Error| format!("{}: {e}\n", path.display());
    fs::create_dir_all(folder).map_err(failed)?;
    fs::write(&path, bytes).map_err(failed)
}
