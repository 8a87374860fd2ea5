//! What the command line asks for.

use crate::Trouble;
use crate::help::{USAGE, help};
use std::ffi::{OsStr, OsString};
use std::path::PathBuf;

/// The forms of a report.
#[derive(Clone, Copy, Debug, Default, PartialEq, Eq)]
pub enum Format {
    #[default]
    Text,
    Numbers,
    Json,
    Sarif,
    Html,
}

/// When text is coloured.
#[derive(Clone, Copy, Debug, Default, PartialEq, Eq)]
pub enum Color {
    Always,
    Never,
    /// On a terminal.
    #[default]
    Auto,
}

/// What is to be checked, and how the report is to be.
#[derive(Debug, Default, PartialEq, Eq)]
pub struct Check {
    pub images: Vec<PathBuf>,
    pub source: Option<PathBuf>,
    /// The folder that has a text for each image.
    pub sources: Option<PathBuf>,
    pub format: Format,
    /// Whether the text has its faults by entry.
    pub by_entry: bool,
    pub output: Option<PathBuf>,
    pub color: Color,
    /// The folder that paths in a SARIF log begin at.
    pub root: Option<PathBuf>,
}

/// Which lot is asked about: the image is the only one of `check`.
#[derive(Debug, PartialEq, Eq)]
pub struct Why {
    pub check: Check,
    pub place: usize,
}

/// What is asked for.
#[derive(Debug, PartialEq, Eq)]
pub enum Command {
    Check(Check),
    Why(Why),
    Show { image: PathBuf },
    Explain { what: Vec<String> },
    HelpPage,
    Version,
    Help,
}

/// Reads the arguments; what is wrong with them is said with the usage. Without any, nothing was checked,
/// so that is no success: a script whose list of images is empty must not take it for one.
pub fn read(given: &[OsString]) -> Result<Command, Trouble> {
    match given.split_first() {
        None => Err(Trouble { what: "nothing was asked for".to_string(), below: help() }),
        Some((first, rest)) => {
            command(given, first, rest).map_err(|what| Trouble { what, below: format!("{USAGE}\n") })
        }
    }
}

fn command(given: &[OsString], first: &OsStr, rest: &[OsString]) -> Result<Command, String> {
    if given.iter().any(|word| word == "--help" || word == "-h") {
        return Ok(Command::Help);
    }
    match (first.to_string_lossy().as_ref(), rest) {
        (CHECK, rest) => asked(CHECK, rest)?.check().map(Command::Check),
        (WHY, rest) => asked(WHY, rest)?.why().map(Command::Why),
        ("show", [image]) if !is_option(image) => Ok(Command::Show { image: image.into() }),
        ("show", _) => Err("`show` takes one image".to_string()),
        ("explain", what) => Ok(Command::Explain { what: what.iter().map(|w| word(w)).collect() }),
        ("help-page", []) => Ok(Command::HelpPage),
        ("--version" | "-V", []) => Ok(Command::Version),
        ("help", []) => Ok(Command::Help),
        (other, _) => {
            Err(format!("`{other}` is no command, or has something after it that does not belong there"))
        }
    }
}

/// The commands that take options.
const CHECK: &str = "check";
const WHY: &str = "why";

/// The one option that takes no value.
const BY_ENTRY: &str = "--by-entry";

fn word(given: &OsStr) -> String {
    given.to_string_lossy().into_owned()
}

/// `-` alone is standard input.
fn is_option(given: &OsStr) -> bool {
    given != "-" && given.as_encoded_bytes().starts_with(b"-")
}

/// An option, with its value where that stands behind `=`.
fn split(given: &OsStr) -> (String, Option<OsString>) {
    use std::os::unix::ffi::OsStrExt;
    let bytes = given.as_bytes();
    match bytes.iter().position(|byte| *byte == b'=') {
        Some(at) => (word(OsStr::from_bytes(&bytes[..at])), Some(OsStr::from_bytes(&bytes[at + 1..]).into())),
        None => (word(given), None),
    }
}

/// What stands behind a command, taken apart.
fn asked(command: &'static str, given: &[OsString]) -> Result<Asked, String> {
    let mut asked = Asked { command, ..Asked::default() };
    let mut rest = given.iter();
    while let Some(next) = rest.next() {
        if next == "--" {
            asked.images.extend(rest.by_ref().map(PathBuf::from));
        } else if is_option(next) && !(command == WHY && is_below_zero(next)) {
            match split(next) {
                (name, value) if name == BY_ENTRY => asked.group(value)?,
                (name, value) => asked.option(&name, || value.or_else(|| rest.next().cloned()))?,
            }
        } else {
            asked.images.push(next.into());
        }
    }
    Ok(asked)
}

/// `-5` is no option of `why`, but a place that cannot be.
fn is_below_zero(given: &OsStr) -> bool {
    given.as_encoded_bytes().strip_prefix(b"-").is_some_and(|digits| digits.iter().all(u8::is_ascii_digit))
}

/// The options as far as they are read.
#[derive(Default)]
struct Asked {
    command: &'static str,
    /// Of `why` the image and the place.
    images: Vec<PathBuf>,
    source: Option<PathBuf>,
    sources: Option<PathBuf>,
    format: Option<Format>,
    by_entry: bool,
    output: Option<PathBuf>,
    color: Option<Color>,
    root: Option<PathBuf>,
}

impl Asked {
    fn option(&mut self, name: &str, value: impl FnOnce() -> Option<OsString>) -> Result<(), String> {
        let path = |place: &mut Option<PathBuf>, value: Option<OsString>| {
            set(place, name, value.filter(|value| !value.is_empty()).map(PathBuf::from))
        };
        match name {
            "--source" => path(&mut self.source, value()),
            "--color" => set(&mut self.color, name, value().map(|v| color(&v)).transpose()?),
            _ if self.command != CHECK => Err(format!("`{name}` is no option of `{}`", self.command)),
            "--sources" => path(&mut self.sources, value()),
            "--output" | "-o" => path(&mut self.output, value()),
            "--root" => path(&mut self.root, value()),
            "--format" => set(&mut self.format, name, value().map(|v| format(&v)).transpose()?),
            _ => Err(format!("`{name}` is no option of `{}`", self.command)),
        }
    }

    /// The option without a value.
    fn group(&mut self, value: Option<OsString>) -> Result<(), String> {
        match (value, std::mem::replace(&mut self.by_entry, true)) {
            _ if self.command != CHECK => Err(format!("`{BY_ENTRY}` is no option of `{}`", self.command)),
            (Some(_), _) => Err(format!("`{BY_ENTRY}` takes no value")),
            (None, true) => Err(format!("`{BY_ENTRY}` is given twice")),
            (None, false) => Ok(()),
        }
    }

    /// The options together, where they go together.
    fn check(self) -> Result<Check, String> {
        let Asked { command: _, images, source, sources, format, by_entry, output, color, root } = self;
        let format = format.unwrap_or_default();
        match images.len() {
            0 => return Err("`check` takes an image".to_string()),
            1 => {}
            _ if source.is_some() => return Err(ONE_SOURCE.to_string()),
            _ if format == Format::Html => return Err(ONE_PAGE.to_string()),
            _ if format == Format::Numbers => return Err(ONE_REPORT.to_string()),
            _ => {}
        }
        if source.is_some() && sources.is_some() {
            return Err("`--source` and `--sources` do not go together".to_string());
        }
        if root.is_some() && format != Format::Sarif {
            return Err("`--root` goes with `--format sarif`".to_string());
        }
        if by_entry && matches!(format, Format::Numbers | Format::Sarif) {
            return Err(IN_THE_LISTS_ORDER.to_string());
        }
        let color = color.unwrap_or_default();
        Ok(Check { images, source, sources, format, by_entry, output, color, root })
    }

    /// The lot that is asked about: an image and a place.
    fn why(mut self) -> Result<Why, String> {
        let given = std::mem::take(&mut self.images);
        let [image, place] = &given[..] else {
            return Err("`why` takes an image and the place of a lot".to_string());
        };
        let place = self::place(place.as_os_str())?;
        let check = Asked { images: vec![image.clone()], ..self }.check()?;
        Ok(Why { check, place })
    }
}

/// How much of what is no place is said again, in characters.
const SAID_AGAIN: usize = 40;

/// A place as a report prints it: digits, and no more than a computer counts with.
fn place(given: &OsStr) -> Result<usize, String> {
    let text = word(given);
    let is_number = !text.is_empty() && text.bytes().all(|byte| byte.is_ascii_digit());
    let more = if text.chars().count() > SAID_AGAIN { "…" } else { "" };
    let again: String = text.chars().take(SAID_AGAIN).collect();
    match text.parse() {
        Ok(place) if is_number => Ok(place),
        _ if is_number => Err(format!("`{again}{more}` is larger than any place; {A_PLACE}")),
        _ => Err(format!("`{again}{more}` is no place; {A_PLACE}")),
    }
}

const A_PLACE: &str = "a place is the number of a node, as a report has it for a 61 or 62";
const IN_THE_LISTS_ORDER: &str = "`--by-entry` goes with text, html and json: numbers and sarif are in the order \
    of the list, and have the entry in each line or result";
const ONE_SOURCE: &str = "`--source` is the text of one image: call `check` once for each image, or give the \
    folder of the texts with `--sources`";
const ONE_PAGE: &str = "a page is for one image: call `check` once for each";
const ONE_REPORT: &str = "the numbers do not say which image they are of: call `check` once for each";

fn set<T>(place: &mut Option<T>, what: &str, value: Option<T>) -> Result<(), String> {
    let value = value.ok_or(format!("`{what}` takes a value"))?;
    match place.replace(value) {
        Some(_) => Err(format!("`{what}` is given twice")),
        None => Ok(()),
    }
}

fn format(name: &OsStr) -> Result<Format, String> {
    match name.to_str() {
        Some("text") => Ok(Format::Text),
        Some("numbers") => Ok(Format::Numbers),
        Some("json") => Ok(Format::Json),
        Some("sarif") => Ok(Format::Sarif),
        Some("html") => Ok(Format::Html),
        _ => Err(format!("`{}` is no format: text, numbers, json, sarif or html", name.to_string_lossy())),
    }
}

fn color(when: &OsStr) -> Result<Color, String> {
    match when.to_str() {
        Some("always") => Ok(Color::Always),
        Some("never") => Ok(Color::Never),
        Some("auto") => Ok(Color::Auto),
        _ => Err(format!("`{}` is no time for colours: always, never or auto", when.to_string_lossy())),
    }
}
