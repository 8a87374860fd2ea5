//! The program `isonkaypu`: checks images and shows the reports, says why a lot is refused, shows an image's
//! tree, explains the numbers of a report.

mod arguments;
mod files;
mod help;
mod run;
mod summary;

use std::io::Write;
use std::path::PathBuf;
use std::process::ExitCode;
use streams::{Stream, was_closed};

/// The exit statuses, as words.txt explains them; of several images the highest.
pub const ACCEPTED: u8 = 0;
pub const OFFENCES: u8 = 1;
pub const NO_IMAGE: u8 = 2;
pub const TROUBLE: u8 = 3;

/// What a run comes to: the text, where it goes (else to standard output), what is said on standard
/// error beside it, and the exit status.
pub struct Answer {
    pub text: String,
    pub output: Option<PathBuf>,
    pub inputs: Vec<PathBuf>,
    pub remarks: Vec<String>,
    pub status: u8,
}

/// Why there is no answer: in one line, with lines of ours below it.
pub struct Trouble {
    pub what: String,
    pub below: String,
}

impl From<String> for Trouble {
    fn from(what: String) -> Trouble {
        Trouble { what, below: String::new() }
    }
}

fn main() -> ExitCode {
    let given: Vec<_> = std::env::args_os().skip(1).collect();
    let told = arguments::read(&given).and_then(|command| Ok(run::run(command)?));
    match told.and_then(|answer| Ok(written(&answer)?)) {
        Ok(status) => ExitCode::from(status),
        Err(Trouble { what, below }) => {
            say(&what);
            let _ = std::io::stderr().write_all(below.as_bytes());
            ExitCode::from(TROUBLE)
        }
    }
}

/// A line on standard error. Where that is closed too, the status alone tells.
fn say(what: &str) {
    let _ = writeln!(std::io::stderr(), "isonkaypu: {}", show::safe(what));
}

/// Writes the whole answer, or says why not.
fn written(answer: &Answer) -> Result<u8, String> {
    match &answer.output {
        Some(path) => {
            let inputs: Vec<_> = answer.inputs.iter().map(PathBuf::as_path).collect();
            files::write(path, &answer.text, &inputs)?;
        }
        None => print(&answer.text)?,
    }
    answer.remarks.iter().for_each(|remark| say(remark));
    Ok(answer.status)
}

fn print(text: &str) -> Result<(), String> {
    if was_closed(Stream::Output) {
        return Err("could not write the report: standard output is closed".to_string());
    }
    let mut out = std::io::stdout().lock();
    let done = out.write_all(text.as_bytes()).and_then(|()| out.flush());
    done.map_err(|error| format!("could not write the report: {error}"))
}
