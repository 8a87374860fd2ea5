//! `compare rust | patterns | consumers | why | report PATH | port | page | show FILE`: see `compare`
//! without a word for the options.

use compare::images::Range;
use std::process::ExitCode;

const USAGE: &str = "\
compare rust [--images N] [--seed S]
    the reference against the published Rust
compare patterns
    what document 01 says by hand against both
compare consumers [--images N] [--seed S]
    what the reference finds to consume each counted occurrence against what one finds on the way up
compare why [--images N] [--seed S]
    what the reference finds to use up each lot against what is written by hand, against what one finds
    place by place, and against the list
compare report PATH [--status] [--images N] [--seed S]
    the reference against the report program at PATH, and against its exit status where that is asked for
compare port [--what GROUP,GROUP..] [--images N] [--seed S]
    the reference against the proved library, in all groups or in those named: refusal, questions,
    verdicts, resolve, access, linear, list, resolve_list, access_list, linear_list, why
compare page [--images N] [--seed S]
    the page's crate against the published Rust, on generated contracts
compare show FILE
    the tree of an image and the reference's report
";

fn main() -> ExitCode {
    let arguments: Vec<String> = std::env::args().skip(1).collect();
    compare::finish(run(&arguments))
}

fn run(arguments: &[String]) -> Result<String, String> {
    let words: Vec<&str> = arguments.iter().map(String::as_str).collect();
    match words.as_slice() {
        ["rust", options @ ..] => compare::rust::run(range(options, 200_000)?),
        ["patterns"] => compare::patterns::run(),
        ["consumers", options @ ..] => compare::consumers::run(range(options, 100_000)?),
        ["why", options @ ..] => compare::why::run(range(options, 100_000)?),
        ["report", path, "--status", options @ ..] => {
            compare::report::run(path, true, range(options, 2_000)?)
        }
        ["report", path, options @ ..] => compare::report::run(path, false, range(options, 2_000)?),
        ["port", options @ ..] => {
            let what = words_of(options, "--what")?;
            compare::port::run(what.as_deref(), range(options, 200_000)?)
        }
        ["page", options @ ..] => compare::page::run(range(options, 100_000)?),
        ["show", file] => show(file),
        _ => Err(USAGE.to_string()),
    }
}

/// The value of an option, where it is given; every word must belong to an option that is known.
fn option<'a>(options: &[&'a str], name: &str) -> Result<Option<&'a str>, String> {
    let mut found = None;
    for pair in options.chunks(2) {
        let [option, value] = pair else {
            return Err(USAGE.to_string());
        };
        if !["--images", "--seed", "--what"].contains(option) {
            return Err(USAGE.to_string());
        }
        if *option == name {
            found = Some(*value);
        }
    }
    Ok(found)
}

fn number(options: &[&str], name: &str, default: u64) -> Result<u64, String> {
    match option(options, name)? {
        None => Ok(default),
        Some(text) => text.parse().map_err(|_| USAGE.to_string()),
    }
}

fn range(options: &[&str], images: u64) -> Result<Range, String> {
    Ok(Range { images: number(options, "--images", images)?, seed: number(options, "--seed", 1)? })
}

/// The words of an option that takes several, with commas between.
fn words_of<'a>(options: &[&'a str], name: &str) -> Result<Option<Vec<&'a str>>, String> {
    Ok(option(options, name)?.map(|text| text.split(',').collect()))
}

fn show(file: &str) -> Result<String, String> {
    let image = std::fs::read(file).map_err(|e| format!("{file}: {e}\n"))?;
    Ok(compare::dump(&image) + &reference::report(&image))
}
