//! The reader of the file of words. It is strict: what it does not know, what is missing and what
//! stands twice is trouble, with the line where it stands.

use crate::{BLANKS, CHECKS, CODES, Case, Entry, Gap, REFUSALS, Term, USES, WITH_OTHERS, Words};
use std::fmt;

/// What is wrong with a file of words, and in which line.
#[derive(Clone, Debug, PartialEq, Eq)]
#[non_exhaustive]
pub struct Trouble {
    /// The line of the file, from 1.
    pub line: usize,
    /// What is wrong there.
    pub what: String,
}

impl fmt::Display for Trouble {
    fn fmt(&self, f: &mut fmt::Formatter<'_>) -> fmt::Result {
        write!(f, "line {}: {}", self.line, self.what)
    }
}

impl std::error::Error for Trouble {}

fn trouble<T>(line: usize, what: impl Into<String>) -> Result<T, Trouble> {
    Err(Trouble { line, what: what.into() })
}

/// `[kind of]` and the fields below it.
struct Section<'a> {
    line: usize,
    kind: &'a str,
    of: &'a str,
    fields: Vec<Field<'a>>,
}

/// `name:` with its text, line by line: what stands after the colon, then the lines set in below.
struct Field<'a> {
    line: usize,
    name: &'a str,
    text: Vec<&'a str>,
}

/// Reads a file of words.
pub fn read(text: &str) -> Result<Words, Trouble> {
    let sections = sections(text)?;
    let mut words = Words::default();
    for section in &sections {
        add(&mut words, section)?;
    }
    all_there(CODES, words.codes.iter().map(|e| e.number), "code")?;
    all_there(REFUSALS, words.refusals.iter().map(|e| e.number), "image")?;
    all_there(&CHECKS, words.checks.iter().map(|t| t.word.as_str()), "checked")?;
    Ok(words)
}

/// Each of them has its entry, in the given order.
fn all_there<T: PartialEq + Copy + fmt::Display>(
    all: &[T],
    have: impl Iterator<Item = T>,
    kind: &str,
) -> Result<(), Trouble> {
    let have = have.map(Some).chain(std::iter::repeat(None));
    match all.iter().zip(have).find(|(one, have)| Some(**one) != *have) {
        Some((one, _)) => trouble(0, format!("[{kind} {one}] is missing, or not in its place")),
        None => Ok(()),
    }
}

fn sections(text: &str) -> Result<Vec<Section<'_>>, Trouble> {
    let mut sections: Vec<Section> = Vec::new();
    for (i, line) in text.lines().enumerate().filter(|(_, line)| !line.starts_with('#')) {
        let at = i + 1;
        match sections.last_mut() {
            _ if line.starts_with('[') => sections.push(head(at, line)?),
            Some(section) => section_line(section, at, line)?,
            None if line.trim().is_empty() => {}
            None => return trouble(at, "words before the first `[...]`"),
        }
    }
    Ok(sections)
}

fn head(at: usize, line: &str) -> Result<Section<'_>, Trouble> {
    let inner = line.strip_prefix('[').and_then(|l| l.strip_suffix(']'));
    match inner.and_then(|l| l.split_once(' ')) {
        Some((kind, of)) if !of.trim().is_empty() => Ok(Section { line: at, kind, of, fields: Vec::new() }),
        _ => trouble(at, "a head is `[kind of]`, such as `[code 51]`"),
    }
}

/// A line below a head: a field begins, goes on (set in by two spaces), or a blank line.
fn section_line<'a>(section: &mut Section<'a>, at: usize, line: &'a str) -> Result<(), Trouble> {
    let inset = line.strip_prefix("  ");
    match (section.fields.last_mut(), inset) {
        (Some(field), Some(rest)) => field.text.push(rest),
        (Some(field), None) if line.is_empty() => field.text.push(""),
        (None, None) if line.is_empty() => {}
        (_, Some(_)) => return trouble(at, "a line that is set in, but no field above it"),
        (_, None) => section.fields.push(field(at, line)?),
    }
    Ok(())
}

fn field(at: usize, line: &str) -> Result<Field<'_>, Trouble> {
    match line.split_once(':') {
        // a name, or a name and its case: `mend near`
        Some((name, rest)) if name.split(' ').all(|w| !w.is_empty()) && name.split(' ').count() <= 2 => {
            let first = rest.trim();
            Ok(Field { line: at, name, text: if first.is_empty() { vec![] } else { vec![first] } })
        }
        _ => trouble(at, "neither a field, `name: words`, nor set in by two spaces"),
    }
}

fn add(words: &mut Words, section: &Section) -> Result<(), Trouble> {
    match section.kind {
        "term" => words.glossary.push(term(section, &words.glossary)?),
        "line" => words.lines.push(term(section, &words.lines)?),
        "status" => words.statuses.push(term(section, &words.statuses)?),
        "checked" => words.checks.push(check(section, &words.checks)?),
        "gap" => words.gaps.push(gap(section, &words.gaps)?),
        "image" => words.refusals.push(entry(section, REFUSALS, &words.refusals)?),
        "code" => words.codes.push(entry(section, CODES, &words.codes)?),
        other => return trouble(section.line, format!("`{other}` is no kind of entry")),
    }
    Ok(())
}

fn term(section: &Section, before: &[Term]) -> Result<Term, Trouble> {
    let also = find(section, "also")?.map(value).unwrap_or_default();
    let also: Vec<String> = also.split(',').map(|w| w.trim().to_string()).filter(|w| !w.is_empty()).collect();
    let has = |term: &Term, word: &str| term.word == word || term.also.iter().any(|w| w == word);
    let words = std::iter::once(section.of).chain(also.iter().map(String::as_str));
    for word in words {
        if before.iter().any(|t| has(t, word)) {
            return trouble(section.line, format!("`{word}` stands twice"));
        }
    }
    only(section, &["also", "means"])?;
    Ok(Term { word: section.of.to_string(), also, means: needed(section, "means")? })
}

fn check(section: &Section, before: &[Term]) -> Result<Term, Trouble> {
    if !CHECKS.contains(&section.of) {
        return trouble(section.line, format!("`{}` is no check", section.of));
    }
    term(section, before)
}

fn gap(section: &Section, before: &[Gap]) -> Result<Gap, Trouble> {
    if before.iter().any(|g| g.word == section.of) {
        return trouble(section.line, format!("`{}` stands twice", section.of));
    }
    only(section, &["means", "example"])?;
    let [means, example] = [needed(section, "means")?, needed(section, "example")?];
    Ok(Gap { word: section.of.to_string(), means, example })
}

/// The fields of a code, beside its cases. A refusal has no place, so it has none of those of places.
const FIELDS: &[&str] = &[
    "title", "fault", "burned", "twice", "here", "there", "first", "more", "only", "clause", "clauses",
    "means", "matters", "mend", "how", "before", "after",
];

fn entry(section: &Section, numbers: &[u16], before: &[Entry]) -> Result<Entry, Trouble> {
    let Some(number) = section.of.parse().ok().filter(|n| numbers.contains(n)) else {
        return trouble(section.line, format!("the documents have no `{} {}`", section.kind, section.of));
    };
    if before.iter().any(|e| e.number == number) {
        return trouble(section.line, format!("`{} {number}` stands twice", section.kind));
    }
    let cases = Case::of_code(number).iter().map(|case| case.field());
    only(section, &FIELDS.iter().copied().chain(cases).collect::<Vec<_>>())?;
    let entry = Entry { number, ..placed(section, number)? };
    blanks_known(section)?;
    Ok(entry)
}

/// The entry's fields: which of them there must be depends on whether it has a place, a related
/// place, an example.
fn placed(section: &Section, number: u16) -> Result<Entry, Trouble> {
    let code = section.kind == "code";
    let others = code && WITH_OTHERS.contains(&number);
    let uses = code && number == USES;
    let where_true = |there: bool, name| if there { needed(section, name) } else { absent(section, name) };
    let example = code || find(section, "before")?.is_some();
    Ok(Entry {
        number,
        title: needed(section, "title")?,
        fault: needed(section, "fault")?,
        burned: where_true(uses, "burned")?,
        twice: where_true(uses, "twice")?,
        here: where_true(code, "here")?,
        there: where_true(others, "there")?,
        first: where_true(uses, "first")?,
        more: where_true(uses, "more")?,
        only: where_true(uses, "only")?,
        clause: where_true(uses, "clause")?,
        clauses: where_true(uses, "clauses")?,
        means: needed(section, "means")?,
        matters: needed(section, "matters")?,
        mend: needed(section, "mend")?,
        mends: mends(section, number)?,
        how: needed(section, "how")?,
        before: where_true(example, "before")?,
        after: where_true(example, "after")?,
    })
}

/// A `mend` for each case of the code.
fn mends(section: &Section, number: u16) -> Result<Vec<(Case, String)>, Trouble> {
    let mend = |case: &Case| Ok((*case, needed(section, case.field())?));
    Case::of_code(number).iter().map(mend).collect()
}

fn only(section: &Section, known: &[&str]) -> Result<(), Trouble> {
    match section.fields.iter().find(|f| !known.contains(&f.name)) {
        Some(field) => trouble(field.line, format!("`{}:` is no field of this entry", field.name)),
        None => Ok(()),
    }
}

fn find<'s, 'a>(section: &'s Section<'a>, name: &str) -> Result<Option<&'s Field<'a>>, Trouble> {
    let mut of_name = section.fields.iter().filter(|f| f.name == name);
    let first = of_name.next();
    match of_name.next() {
        Some(second) => trouble(second.line, format!("`{name}:` stands twice in this entry")),
        None => Ok(first),
    }
}

fn needed(section: &Section, name: &str) -> Result<String, Trouble> {
    let value = find(section, name)?.map(value).unwrap_or_default();
    if value.is_empty() {
        return trouble(section.line, format!("`{name}:` is missing in [{} {}]", section.kind, section.of));
    }
    Ok(value)
}

fn absent(section: &Section, name: &str) -> Result<String, Trouble> {
    match find(section, name)? {
        Some(field) => trouble(field.line, format!("`{name}:` does not belong here")),
        None => Ok(String::new()),
    }
}

/// The text of a field. An example keeps its lines; other text is joined, with a line break where
/// an empty line stands.
fn value(field: &Field) -> String {
    let lines = field.text.iter().map(|l| l.trim_end());
    let text = match field.name {
        "before" | "after" | "example" => lines.collect::<Vec<_>>().join("\n"),
        _ => lines
            .map(|l| if l.is_empty() { "\n" } else { l })
            .collect::<Vec<_>>()
            .join(" ")
            .replace(" \n ", "\n\n"),
    };
    text.trim_end().to_string()
}

/// The fields that are sentences and labels of a report, beside the mends.
const SAID: &[&str] =
    &["fault", "burned", "twice", "here", "there", "first", "more", "only", "clause", "clauses"];

/// Blanks stand in the sentences of codes only, and each is known.
fn blanks_known(section: &Section) -> Result<(), Trouble> {
    for field in section.fields.iter().filter(|f| !matches!(f.name, "before" | "after")) {
        let may = section.kind == "code" && (SAID.contains(&field.name) || field.name.starts_with("mend"));
        if let Some(blank) = blanks(&value(field)).into_iter().find(|b| !may || !BLANKS.contains(b)) {
            return trouble(field.line, format!("`{{{blank}}}` is no blank of `{}:`", field.name));
        }
    }
    Ok(())
}

/// The blanks `{...}` of a text.
fn blanks(text: &str) -> Vec<&str> {
    text.split('{').skip(1).map(|rest| rest.split_once('}').map_or(rest, |(blank, _)| blank)).collect()
}
