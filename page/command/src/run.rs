//! Doing what the command line asks for.

use crate::arguments::{Check, Color, Command, Format, Why};
use crate::summary::summary;
use crate::{ACCEPTED, Answer, NO_IMAGE, OFFENCES, TROUBLE, files, help};
use isonkaypu::{Doubt, ImageRefusal, Lot, Report, WhyError, check_image};
use show::Subject;
use std::io::IsTerminal;
use std::path::{Component, Path, PathBuf};

pub fn run(command: Command) -> Result<Answer, String> {
    match command {
        Command::Check(check) => checked(&check),
        Command::Why(why) => asked_why(&why),
        Command::Show { image } => shown(image),
        Command::Explain { what } => explain(&what).map(told),
        Command::HelpPage => Ok(told(words::help_page())),
        Command::Version => Ok(told(help::version())),
        Command::Help => Ok(told(help::help())),
    }
}

/// An answer about no contract.
fn told(text: String) -> Answer {
    Answer { text, output: None, inputs: Vec::new(), remarks: Vec::new(), status: ACCEPTED }
}

/// An image as it was read and checked, with its source.
struct Read {
    label: String,
    bytes: Vec<u8>,
    outcome: Result<Report, ImageRefusal>,
    source: Option<(String, Vec<u8>)>,
}

impl Read {
    fn of(image: &Path, source: Option<&Path>, check: &Check) -> Result<Read, String> {
        let bytes = files::image(image)?;
        let label = label(image, check)?;
        let source = source.map(|path| Ok::<_, String>((self::label(path, check)?, files::source(path)?)));
        let outcome = check_image(&bytes);
        Ok(Read { label, bytes, outcome, source: source.transpose()? })
    }

    fn subject(&self) -> Subject<'_> {
        let subject = match &self.outcome {
            Ok(report) => Subject::checked(&self.label, report),
            Err(refusal) => Subject::no_image(&self.label, &self.bytes, *refusal),
        };
        match &self.source {
            Some((name, text)) => subject.with_source(name, text),
            None => subject,
        }
    }
}

/// The images with their sources, and the files that were read. Nothing is shown where one cannot be.
fn read(check: &Check) -> Result<(Vec<Read>, Vec<PathBuf>), String> {
    let sources: Vec<Option<PathBuf>> = check.images.iter().map(|image| source_of(image, check)).collect();
    let inputs: Vec<PathBuf> = check.images.iter().chain(sources.iter().flatten()).cloned().collect();
    if inputs.iter().filter(|path| files::is_standard(path)).count() > 1 {
        return Err(
            "the images and the source cannot both be standard input, nor can two of them".to_string()
        );
    }
    let pairs = check.images.iter().zip(&sources);
    let read = pairs.map(|(image, source)| Read::of(image, source.as_deref(), check));
    Ok((read.collect::<Result<Vec<_>, _>>()?, inputs))
}

/// Checks every image.
fn checked(check: &Check) -> Result<Answer, String> {
    let (read, inputs) = read(check)?;
    let subject = |read| if check.by_entry { Read::subject(read).by_entry() } else { Read::subject(read) };
    let subjects: Vec<Subject> = read.iter().map(subject).collect();
    let statuses = subjects.iter().map(status).collect::<Result<Vec<_>, _>>()?;
    let text = formed(check, &subjects, &statuses);
    let output = check.output.clone().filter(|path| !files::is_standard(path));
    let says_it = check.format == Format::Text && output.is_none();
    let remarks = if says_it { Vec::new() } else { remarks(&subjects) };
    Ok(Answer { text, output, inputs, remarks, status: statuses.into_iter().max().unwrap_or(TROUBLE) })
}

/// Why a lot is refused, or is not.
fn asked_why(why: &Why) -> Result<Answer, String> {
    let Why { check, place } = why;
    let (read, inputs) = read(check)?;
    let [read] = &read[..] else {
        return Err("`why` is asked of one image".to_string());
    };
    let subject = read.subject();
    let status = status(&subject)?;
    let Some(report) = subject.report() else {
        return Ok(Answer { status, inputs, ..told(show::text(&subject)) });
    };
    let lot = report.why(*place).map_err(|error| no_answer(error, read))?;
    let text = if coloured(check) { show::why_in_colour } else { show::why };
    let status = match lot.reasons.len() {
        // on another text than the image's there is no answer
        _ if status == TROUBLE => TROUBLE,
        1 => ACCEPTED,
        _ => OFFENCES,
    };
    Ok(Answer { status, inputs, ..told(text(&subject, &lot)) })
}

/// How many lots are named to somebody who asked about none.
const NAMED: usize = 20;

/// Why there is no answer about a lot; where none stands at the place, which places there are.
fn no_answer(error: WhyError, read: &Read) -> String {
    let WhyError::NoLot(_) = error else {
        return error.to_string();
    };
    let lots = isonkaypu::lots(&read.bytes).unwrap_or_default();
    let named = |lot: &Lot| format!("{} (`{}`)", lot.place.node, lot.name.as_deref().unwrap_or_default());
    let places: Vec<String> = lots.iter().take(NAMED).map(named).collect();
    let more = match lots.len().saturating_sub(NAMED) {
        0 => String::new(),
        more => format!(" and {more} more"),
    };
    match lots.is_empty() {
        true => format!("{error} of {}, which has no lot", read.label),
        false => format!("{error} of {}; its lots stand at {}{more}", read.label, places.join(", ")),
    }
}

/// The text that belongs to an image: the one that was given, or the one of its name in the folder.
fn source_of(image: &Path, check: &Check) -> Option<PathBuf> {
    let named = |folder: &PathBuf| Some(folder.join(image.file_stem()?).with_extension("quanta"));
    check.source.clone().or_else(|| check.sources.as_ref().and_then(named))
}

fn formed(check: &Check, subjects: &[Subject], statuses: &[u8]) -> String {
    let text = if coloured(check) { show::text_in_colour } else { show::text };
    match (check.format, subjects) {
        (Format::Text, [subject]) => text(subject),
        (Format::Json, [subject]) => show::json(subject),
        (Format::Text, _) => {
            let reports: String = subjects.iter().map(|subject| text(subject) + "\n").collect();
            reports + &summary(subjects, statuses)
        }
        (Format::Json, _) => show::json_of(subjects),
        (Format::Sarif, _) => show::sarif_of(subjects),
        (Format::Numbers, _) => subjects.iter().map(show::numbers).collect(),
        (Format::Html, _) => subjects.iter().map(show::html).collect(),
    }
}

/// Colours on a terminal that has them, unless somebody wants none: see no-color.org.
fn coloured(check: &Check) -> bool {
    let set = |name: &str| std::env::var_os(name).filter(|value| !value.is_empty());
    let wanted = || set("NO_COLOR").is_none() && set("TERM").is_none_or(|term| term != "dumb");
    match check.color {
        Color::Always => true,
        Color::Never => false,
        Color::Auto => check.output.is_none() && wanted() && std::io::stdout().is_terminal(),
    }
}

/// What is said on standard error of texts that are not their images', where the report does not say it to
/// people on their terminal.
fn remarks(subjects: &[Subject]) -> Vec<String> {
    let of = |subject: &Subject| {
        let (name, difference) = subject.other_text()?;
        let image = subject.image_label();
        Some(format!("{name} is not the text that {image} was made from: {}", difference.in_words()))
    };
    subjects.iter().filter_map(of).collect()
}

/// The tree of an image.
fn shown(image: PathBuf) -> Result<Answer, String> {
    let read = Read::of(&image, None, &Check::default())?;
    let subject = read.subject();
    let status = status(&subject)?;
    Ok(Answer { status, ..told(show::tree(&subject)) })
}

/// The exit status. That there was no room for the list is an answer; other doubts are none, and neither
/// is a report on another text than the one that was given.
fn status(subject: &Subject) -> Result<u8, String> {
    let Some(report) = subject.report() else {
        return Ok(NO_IMAGE);
    };
    match report.doubts().iter().find(|doubt| **doubt != Doubt::List(9)) {
        Some(doubt) => Err(format!("the checker's answers do not hold together: {doubt}")),
        None if subject.other_text().is_some() => Ok(TROUBLE),
        None if subject.accepted() => Ok(ACCEPTED),
        None => Ok(OFFENCES),
    }
}

/// What a reader calls the file: its path as it was given, so that an editor finds it; on a page, which
/// goes to others, its name without the folders; in SARIF the path from the root where one is given.
fn label(path: &Path, check: &Check) -> Result<String, String> {
    if files::is_standard(path) {
        return Ok("standard input".to_string());
    }
    let name = || path.file_name().map(PathBuf::from);
    Ok(match (check.format, &check.root) {
        (Format::Html, _) => plain(&name().unwrap_or(path.to_path_buf())),
        (_, Some(root)) => plain(&from(root, path)?),
        (_, None) => plain(path),
    })
}

/// The path of a file that lies in the folder, from there on.
fn from(root: &Path, path: &Path) -> Result<PathBuf, String> {
    let whole = |path: &Path| {
        path.canonicalize().map_err(|error| format!("could not read {}: {error}", path.display()))
    };
    let inside = whole(path)?.strip_prefix(whole(root)?).map(Path::to_path_buf);
    inside.map_err(|_| format!("{} does not lie in {}", path.display(), root.display()))
}

/// A path with forward slashes, and without parts that say nothing.
fn plain(path: &Path) -> String {
    let root = path.components().any(|part| part == Component::RootDir);
    let said = |part: &Component| !matches!(part, Component::CurDir | Component::RootDir);
    let parts = path.components().filter(said).map(|part| part.as_os_str().to_string_lossy().into_owned());
    let parts = parts.collect::<Vec<_>>().join("/");
    if root { format!("/{parts}") } else { parts }
}

/// `62`, `image 5`, `lot`, `not-checked`, or nothing for all that there is.
fn explain(what: &[String]) -> Result<String, String> {
    let words: Vec<&str> = what.iter().flat_map(|w| w.split_whitespace()).collect();
    let nothing =
        || format!("nothing to explain by the name `{}`; `isonkaypu explain` lists all", words.join(" "));
    words::find(&words).ok_or_else(nothing)
}
