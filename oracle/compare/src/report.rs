//! `compare report`: the reference's report against all that the program prints and, where that is
//! asked for, against the status that it ends with.

use crate::images::{Range, all_classes};
use crate::mismatch::{Mismatch, same, shown};
use std::io::{ErrorKind, Write};
use std::process::{Command, Stdio};

/// Of the images, each how many is given to a program whose exit status is asked for: `./report`
/// sees to its proofs each time that it is run.
const STEP: usize = 8;

/// Runs the program at `path` once for each image, and holds its exit status to the report's too if
/// `status` says so.
pub fn run(path: &str, status: bool, range: Range) -> Result<String, String> {
    let check = |image: &[u8]| agree(path, status, image);
    let mut count = 0;
    for (label, image) in all_classes(range).step_by(if status { STEP } else { 1 }) {
        check(&image).map_err(|_| shown(&label, &image, &check))?;
        count += 1;
    }
    let what = if status { "reports with their exit status" } else { "reports" };
    Ok(format!("{count} {what}: no mismatch\n"))
}

fn agree(path: &str, status: bool, image: &[u8]) -> Result<(), Mismatch> {
    let (text, ended) = match printed(path, image) {
        Ok((text, ended)) => (Ok(text), ended),
        Err(error) => (Err(error), None),
    };
    same("the report", Ok(reference::report(image)), text)?;
    if status { same("the exit status", Some(status_of(image)), ended) } else { Ok(()) }
}

/// 0 accepted, 1 offences, 2 no image.
fn status_of(image: &[u8]) -> i32 {
    reference::judge(image).map_or(2, |judged| i32::from(!judged.list().is_empty()))
}

/// What the program prints when it is given the image, and the status that it ends with; one that is
/// killed has none, and that is an error.
fn printed(path: &str, image: &[u8]) -> Result<(String, Option<i32>), String> {
    let failed = |e: std::io::Error| format!("{path}: {e}");
    let mut child =
        Command::new(path).stdin(Stdio::piped()).stdout(Stdio::piped()).spawn().map_err(failed)?;
    if let Some(mut stdin) = child.stdin.take() {
        match stdin.write_all(image) {
            // the program may stop reading once it has more than any image has
            Err(e) if e.kind() != ErrorKind::BrokenPipe => return Err(failed(e)),
            _ => {}
        }
    }
    let output = child.wait_with_output().map_err(failed)?;
    if output.status.code().is_none() {
        return Err(format!("{path}: {}", output.status));
    }
    let text = String::from_utf8(output.stdout).map_err(|e| format!("{path}: {e}"))?;
    Ok((text, output.status.code()))
}
